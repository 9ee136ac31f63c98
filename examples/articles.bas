Attribute VB_Name = "Articles"
Option Explicit

' Article numbers of thirteen digits, the last of which checks the others.
Sub Main()
    Check 4006381333931^
    Check 4006381333932^
    Check 9783161484100^
    Check 12^
End Sub

Sub Check(ByVal article As LongLong)
    If Not HasDigits(article, 13) Then
        Debug.Print article & " has no thirteen digits"
    ElseIf CheckDigit(article \ 10) = article Mod 10 Then
        Debug.Print article & " is right"
    Else
        Debug.Print article & " should end in " & CheckDigit(article \ 10)
    End If
End Sub

Function HasDigits(ByVal number As LongLong, ByVal wanted As Integer) As Boolean
    Dim digits As Integer
    Do Until number = 0
        number = number \ 10
        digits = digits + 1
    Loop
    HasDigits = digits = wanted
End Function

' Digits count three times and once in turn, from the right.
Function CheckDigit(ByVal number As LongLong) As Integer
    Dim sum As LongLong, weight As Integer
    weight = 3
    While number > 0
        sum = sum + (number Mod 10) * weight
        weight = 4 - weight
        number = number \ 10
    Wend
    CheckDigit = (10 - sum Mod 10) Mod 10
End Function
