Attribute VB_Name = "Summary"
Option Explicit

' Sums the invoices of each customer into the sheet Summary.
Sub Main()
    Dim invoices As Worksheet, summary As Worksheet
    Set invoices = Worksheets("Invoices")
    Set summary = Worksheets("Summary")
    Dim i As Long, at As Long, total As Currency
    For i = 2 To invoices.UsedRange.Rows.Count
        at = RowOf(summary, invoices.Cells(i, 2).Value)
        With summary.Cells(at, 2)
            .Value = .Value + invoices.Cells(i, 3).Value
            .Offset(0, 1).Value = .Offset(0, 1).Value + 1
        End With
        total = total + invoices.Cells(i, 3).Value
    Next
    Debug.Print "customers:"; summary.UsedRange.Rows.Count - 1
    Debug.Print "total:"; total
End Sub

' The row of a customer, a new one behind the others where there is none yet.
Function RowOf(sheet As Worksheet, ByVal customer As String) As Long
    RowOf = 2
    Do Until IsEmpty(sheet.Cells(RowOf, 1).Value)
        If sheet.Cells(RowOf, 1).Value = customer Then Exit Function
        RowOf = RowOf + 1
    Loop
    sheet.Cells(RowOf, 1).Value = customer
End Function
