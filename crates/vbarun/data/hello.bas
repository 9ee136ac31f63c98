Sub Main()
Debug.Print 2 + 3
End Sub
