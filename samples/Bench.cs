// What scripts/bench-run times: calls, a loop of additions, and 64-bit remainders.
using System;

static class Bench
{
    static int Fib(int n)
    {
        return n < 2 ? n : Fib(n - 1) + Fib(n - 2);
    }

    static int Sum(int count)
    {
        int sum = 0;
        for (int i = 0; i < count; i++)
            sum += i;
        return sum;
    }

    static long Rests(int count)
    {
        ulong state = 1;
        long sum = 0;
        for (int i = 1; i <= count; i++)
        {
            state = state * 6364136223846793005 + 1442695040888963407;
            sum += (long)(state % (ulong)(i + 12345));
        }
        return sum;
    }

    static int Main(string[] args)
    {
        Console.WriteLine(args[0] == "Fib" ? Fib(32) : args[0] == "Sum" ? Sum(100000000) : Rests(10000000));
        return 0;
    }
}
