Sub Main()
    If 2 > 1 Then
        Debug.Print "an If without its End If"
End Sub
