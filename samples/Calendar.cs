// A library of static methods of integers, which Easter.cs calls.
// Compiled by `mcs -optimize+ -target:library -out:Calendar.dll Calendar.cs`.
namespace Dates
{
    public static class Calendar
    {
        public static bool IsLeap(int year)
        {
            return year % 4 == 0 && (year % 100 != 0 || year % 400 == 0);
        }

        public static int DaysIn(int year, int month)
        {
            switch (month)
            {
                case 2:
                    return IsLeap(year) ? 29 : 28;
                case 4:
                case 6:
                case 9:
                case 11:
                    return 30;
                default:
                    return 31;
            }
        }

        // The number of the day in its year, from 1.
        public static int DayOfYear(int year, int month, int day)
        {
            int number = day;
            for (int before = 1; before < month; before++)
                number += DaysIn(year, before);
            return number;
        }

        // 0 for a Sunday, 6 for a Saturday, in the Gregorian calendar.
        public static int Weekday(int year, int month, int day)
        {
            int before = year - 1;
            return (before + before / 4 - before / 100 + before / 400 + DayOfYear(year, month, day)) % 7;
        }
    }
}
