Attribute VB_Name = "Workdays"
Option Explicit

' Days as numbers: how many working days lie between two dates, both of them counted.
Const Monday As Long = 0
Const Saturday As Long = 5

Sub Main()
    Show 2026, 11, 23, 2026, 11, 29
    Show 2026, 2, 1, 2026, 2, 28
    Show 2024, 1, 1, 2024, 12, 31
    Show 2026, 5, 2, 2026, 5, 3
End Sub

Sub Show(y1 As Long, m1 As Long, d1 As Long, y2 As Long, m2 As Long, d2 As Long)
    Dim first As Long, last As Long
    first = DayNumber(y1, m1, d1)
    last = DayNumber(y2, m2, d2)
    Debug.Print last - first + 1; "days,"; Workdays(first, last); "of them working days"
End Sub

Function Workdays(ByVal first As Long, ByVal last As Long) As Long
    Dim d As Long
    For d = first To last
        If DayOfWeek(d) < Saturday Then Workdays = Workdays + 1
    Next d
End Function

' Days since 1 January 1900, which was a Monday.
Function DayNumber(ByVal y As Long, ByVal m As Long, ByVal d As Long) As Long
    Dim k As Long, n As Long
    For k = 1900 To y - 1
        n = n + 365
        If IsLeap(k) Then n = n + 1
    Next k
    For k = 1 To m - 1
        n = n + DaysIn(y, k)
    Next k
    DayNumber = n + d - 1
End Function

Function DayOfWeek(ByVal number As Long) As Long
    DayOfWeek = (Monday + number) Mod 7
End Function

Function DaysIn(ByVal y As Long, ByVal m As Long) As Long
    Select Case m
        Case 4, 6, 9, 11: DaysIn = 30
        Case 2: If IsLeap(y) Then DaysIn = 29 Else DaysIn = 28
        Case Else: DaysIn = 31
    End Select
End Function

Function IsLeap(ByVal y As Long) As Boolean
    IsLeap = y Mod 4 = 0 And (y Mod 100 <> 0 Or y Mod 400 = 0)
End Function
