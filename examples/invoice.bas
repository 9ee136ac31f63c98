Attribute VB_Name = "Invoice"
Option Explicit

' An invoice in whole cents: discounts by quantity, and a tax that is rounded half up on each line.
Enum Rate
    Reduced = 7
    Full = 19
End Enum

Private lineCount As Integer
Private total As Long

Sub Main()
    AddLine "paper", 4, 1250, Full
    AddLine "books", 12, 1995, Reduced
    AddLine "chairs", 100, 8999, Full
    Debug.Print lineCount & " lines, " & Amount(total)
End Sub

Sub AddLine(ByVal item As String, ByVal quantity As Long, ByVal price As Long, ByVal taxRate As Rate)
    Dim net As Long, tax As Long
    net = quantity * price
    net = net - Share(net, Discount(quantity))
    tax = Share(net, taxRate)
    total = total + net + tax
    lineCount = lineCount + 1
    Debug.Print item & ": " & Amount(net) & " + " & Amount(tax)
End Sub

Function Discount(ByVal quantity As Long) As Long
    Select Case quantity
        Case Is >= 100
            Discount = 10
        Case 10 To 99
            Discount = 5
        Case Else
            Discount = 0
    End Select
End Function

' So many percent of an amount, rounded half up.
Function Share(ByVal amount As Long, ByVal percent As Long) As Long
    Share = (amount * percent + 50) \ 100
End Function

Function Amount(ByVal cents As Long) As String
    Dim rest As Long
    rest = cents Mod 100
    If rest < 10 Then
        Amount = cents \ 100 & ".0" & rest
    Else
        Amount = cents \ 100 & "." & rest
    End If
End Function
