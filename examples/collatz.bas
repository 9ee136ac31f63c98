Attribute VB_Name = "Collatz"
Option Explicit

' Counts the steps from a number to 1, and stops counting past a bound.
Const Most As Long = 1000

Sub Main()
    Dim n As Long
    For n = 25 To 28
        Debug.Print n; "takes"; Steps(n); "steps"
    Next n
    Debug.Print Quotient(7, 0)
End Sub

Function Steps(ByVal n As Long) As Long
    Dim count As Long
    Do While n <> 1 And count < Most
        If n Mod 2 = 0 Then
            n = n \ 2
        Else
            n = 3 * n + 1
        End If
        count = count + 1
    Loop
    Steps = count
End Function

Function Quotient(ByVal a As Long, ByVal b As Long) As String
    On Error GoTo Failed
    Quotient = "quotient" & a \ b
    Exit Function
Failed:
    Quotient = "error" & Err.Number
End Function
