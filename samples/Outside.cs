// Methods that don't run today, and what can be written in their place. docs/COMING_FROM.md has them in a table.
// Compiled by `mcs -optimize+ -out:Outside.exe Outside.cs`.
using System;

public enum Color { Red, Green, Blue }

// The initial value makes a static constructor, so no method of the class runs.
public static class Initialised
{
    public static int Scale = 10;
    public static int Next(int n) { return n + 1; }
}

// A constant is a number in the code of its users.
public static class Constant
{
    public const int Scale = 10;
    public static int Next(int n) { return n + Scale / 10; }
}

public static class Outside
{
    // A checked conversion, and a comparison in its place.
    public static int Narrow(long n) { return checked((int)n); }
    public static int NarrowOrZero(long n) { return n < int.MinValue || n > int.MaxValue ? 0 : (int)n; }

    // An enum as a parameter, and its number.
    public static int OfEnum(Color color) { return (int)color + 1; }
    public static int CallsOfEnum() { Console.WriteLine(1); return OfEnum(Color.Blue); }
    public static int OfNumber(int color) { return color == (int)Color.Blue ? 3 : 1; }

    // Lines of other types, and of a number.
    public static void WritesBool(int n) { Console.WriteLine(n > 0); }
    public static void WritesText() { Console.WriteLine(""); }
    public static void WritesNumber(int n) { Console.WriteLine(n > 0 ? 1 : 0); }

    // An exception that is caught or thrown, and a test in its place.
    public static int Caught(int n) { try { return 100 / n; } catch (DivideByZeroException) { return 0; } }
    public static int Thrown(int n) { if (n < 0) throw new ArgumentException(); return n; }
    public static int Tested(int n) { return n == 0 ? 0 : 100 / n; }

    // A result by reference, and two results in one number.
    public static void Divide(int n, int by, out int whole, out int rest) { whole = n / by; rest = n % by; }
    public static long Divided(int n, int by) { return ((long)(n / by) << 32) | (uint)(n % by); }

    // A method of the framework.
    public static int Largest(int a, int b) { return Math.Max(a, b); }

    // A generic method.
    public static int Ignored<T>(int n) { return n; }
    public static int CallsGeneric() { return Ignored<int>(3); }

    // An entry takes numbers, and no texts.
    public static int Main(string[] words) { return words.Length; }
}
