Sub Main()
    Debug.Print "He said ""hello"" and counted:"
    Debug.Print 16383 + 16383

    debug.print 7
End Sub
