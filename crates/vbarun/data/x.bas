Sub Main()
    GoTo a$
End Sub
