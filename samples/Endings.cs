// Methods whose runs end in different ways. The entry and its arguments are given to `r2r run`: `--entry Endings::Factorial --worker 21`.
// Compiled by `mcs -optimize+ -target:library -out:Endings.dll Endings.cs`.
using System;

public static class Endings
{
    // Return, or Overflow from 21 on.
    public static long Factorial(int n)
    {
        long product = 1;
        for (int i = 2; i <= n; i++)
            product = checked(product * i);
        return product;
    }

    // Return, or DivideByZero for 0.
    public static int Part(int whole, int parts)
    {
        return whole / parts;
    }

    // Prints each number of the sequence of Collatz. Return of the number of steps; OutOfTicks where it is given too few ticks.
    public static int Collatz(ulong number)
    {
        int steps = 0;
        while (number != 1)
        {
            Console.WriteLine(number);
            number = number % 2 == 0 ? number / 2 : 3 * number + 1;
            steps++;
        }
        return steps;
    }

    // Return for fewer than 1,024, or DepthLimit: each call waits for the next one.
    public static int Depth(int n)
    {
        return n == 0 ? 0 : Depth(n - 1) + 1;
    }

    // OutputFull for enough lines.
    public static void Lines(int count)
    {
        for (int i = 0; i < count; i++)
            Console.WriteLine(ulong.MaxValue);
    }

    // Unsupported: a string is no integer.
    public static void Hello()
    {
        Console.WriteLine("Hello");
    }
}
