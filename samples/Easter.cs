// Prints Easter Sunday of six years as YYYYMMDD, and returns how many of the days are Sundays. It calls a second file, so it runs with
// `--ref Calendar.dll`.
// Compiled by `mcs -optimize+ -reference:Calendar.dll -out:Easter.exe Easter.cs`.
using System;
using Dates;

static class Easter
{
    // The date as a number, by the rule of Meeus, Jones and Butcher.
    static int Date(int year)
    {
        int a = year % 19, b = year / 100, c = year % 100;
        int h = (19 * a + b - b / 4 - (b - (b + 8) / 25 + 1) / 3 + 15) % 30;
        int l = (32 + 2 * (b % 4) + 2 * (c / 4) - h - c % 4) % 7;
        int m = (a + 11 * h + 22 * l) / 451;
        int n = h + l - 7 * m + 114;
        return (year * 100 + n / 31) * 100 + n % 31 + 1;
    }

    static int Main()
    {
        int sundays = 0;
        for (int year = 2024; year < 2030; year++)
        {
            int date = Date(year);
            Console.WriteLine(date);
            if (Calendar.Weekday(year, date / 100 % 100, date % 100) == 0)
                sundays++;
        }
        return sundays;
    }
}
