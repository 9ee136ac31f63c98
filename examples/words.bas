Attribute VB_Name = "Words"
Option Explicit

' How often each word of a text stands in it, in the order in which the words come first. A Collection finds the number
' of a word by its key, in which capital and small letters are the same.
Sub Main()
    Dim numbers As New Collection, words As New Collection
    Dim counts(1 To 20) As Long, word As Variant, number As Long
    For Each word In Split("Red green red blue Green red", " ")
        number = NumberOf(numbers, words, word)
        counts(number) = counts(number) + 1
    Next
    For number = 1 To words.Count
        Debug.Print words(number) & ": " & counts(number)
    Next
End Sub

' The number of a word, which is a new one where no word has it as a key.
Function NumberOf(ByVal numbers As Collection, ByVal words As Collection, ByVal word As String) As Long
    On Error GoTo Unknown
    NumberOf = numbers(word)
    Exit Function
Unknown:
    words.Add word
    numbers.Add words.Count, word
    NumberOf = words.Count
End Function
