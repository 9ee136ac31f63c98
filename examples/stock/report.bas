Attribute VB_Name = "Report"
Option Explicit

Private Type Item
    Title As String
    Count As Long
    Price As Currency
End Type

Private items(1 To 3) As Item

Sub Main()
    Fill 1, "bolts", count:=120, price:=0.05@
    Fill 2, "hinges", price:=2.5@
    Fill 3, price:=19.9@, count:=4, title:="locks"
    Dim i As Long, total As Currency
    For i = 1 To 3
        With items(i)
            total = total + .Count * .Price
            Debug.Print Texts.Row(.Title, .Count, .Price)
        End With
    Next
    Debug.Print Texts.Row("total", total)
End Sub

Private Sub Fill(ByVal at As Long, ByVal title As String, Optional ByVal count As Long = 1, _
    Optional ByVal price As Currency)
    With items(at)
        .Title = title
        .Count = count
        .Price = price
    End With
End Sub
