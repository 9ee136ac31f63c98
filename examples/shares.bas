Attribute VB_Name = "Shares"
Option Explicit

' A report: how an amount is shared among departments, with bars of one mark for each full ten.
Private whole As Currency

Sub Main()
    whole = 1234.56@
    Heading "Department", "Share"
    Row "Sales", 45
    Row "Service", 30.5@
    Row "Stock", 24.5@
    Debug.Print Repeated("=", 28)
    Debug.Print "All", whole
End Sub

Sub Heading(ByVal first As String, ByVal second As String)
    Debug.Print first, second
    Debug.Print Repeated("-", 28)
End Sub

Sub Row(ByVal name As String, ByVal percent As Currency)
    Dim part As Currency
    part = whole * percent * 0.01@
    Debug.Print name, part; Repeated("#", percent \ 10)
End Sub

Function Repeated(ByVal mark As String, ByVal times As Long) As String
    Dim k As Long
    For k = 1 To times
        Repeated = Repeated & mark
    Next k
End Function
