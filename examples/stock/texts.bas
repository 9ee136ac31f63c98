Attribute VB_Name = "Texts"
Option Explicit

' The parts of a row, with a bar between two.
Function Row(ParamArray parts()) As String
    Dim i As Long
    For i = LBound(parts) To UBound(parts)
        If i > 0 Then Row = Row & " | "
        Row = Row & parts(i)
    Next
End Function
