Attribute VB_Name = "Sales"
Option Explicit

' Sells, and orders what runs low: nothing here asks for it, the watch hears each cell that is written.
Sub Main()
    Dim watch As New StockWatch
    Dim orders As New Orders
    watch.Follow Worksheets("Stock")
    orders.Follow watch
    Sell "hinges", 20
    Sell "bolts", 3
    Sell "locks", 4
    Sell "hinges", 15
    orders.PrintAll
End Sub

Private Sub Sell(article As String, amount As Long)
    Dim row As Long
    For row = 2 To 4
        If Worksheets("Stock").Cells(row, 1).Value = article Then
            Worksheets("Stock").Cells(row, 2).Value = Worksheets("Stock").Cells(row, 2).Value - amount
        End If
    Next
End Sub
