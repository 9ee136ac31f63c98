Attribute VB_Name = "Retry"
Option Explicit

' Tries again where a step fails, and gives up after the third time.
Const MostTries As Integer = 3
Private calls As Integer

Sub Main()
    Dim found As String
    found = Fetched(2)
    Debug.Print found & " after " & calls & " calls"
    found = Fetched(5)
    Debug.Print found & " after " & calls & " calls"
End Sub

' What a server gives that answers only from one call on.
Function Fetched(ByVal answersFrom As Integer) As String
    Dim tries As Integer
    calls = 0
    On Error GoTo Failed
    Fetched = "value " & Answer(answersFrom)
    Exit Function
Failed:
    tries = tries + 1
    Debug.Print "error " & Err.Number & " at try " & tries
    If tries < MostTries Then Resume
    Fetched = "nothing"
    Resume Done
Done:
    On Error GoTo 0
End Function

' A division by nothing is the failure.
Function Answer(ByVal answersFrom As Integer) As Integer
    Dim ready As Integer
    calls = calls + 1
    If calls >= answersFrom Then ready = 1
    Answer = 100 \ ready
End Function
