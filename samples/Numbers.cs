// Static methods of integers, as `r2r run` takes them: loops, recursion, 64-bit and checked arithmetic, printed numbers.
using System;

static class Numbers
{
    static int Fib(int n)
    {
        return n < 2 ? n : Fib(n - 1) + Fib(n - 2);
    }

    static int Gcd(int a, int b)
    {
        while (b != 0)
        {
            int rest = a % b;
            a = b;
            b = rest;
        }
        return a;
    }

    // A step of a 64-bit generator (Knuth, MMIX), and the state after so many of them.
    static ulong Mix(int steps)
    {
        ulong state = 1;
        for (int i = 0; i < steps; i++)
            state = state * 6364136223846793005 + 1442695040888963407;
        return state;
    }

    // The product of the numbers up to n; the run ends with an overflow where it doesn't fit.
    static long Factorial(int n)
    {
        long product = 1;
        for (int i = 2; i <= n; i++)
            product = checked(product * i);
        return product;
    }

    static int Bits(uint word)
    {
        int count = 0;
        for (; word != 0; word >>= 1)
            count += (int)(word & 1);
        return count;
    }

    static bool IsPrime(int n)
    {
        for (int d = 2; d * d <= n; d++)
        {
            if (n % d == 0)
                return false;
        }
        return n > 1;
    }

    static int Primes(int limit)
    {
        int count = 0;
        for (int n = 2; n <= limit; n++)
        {
            if (IsPrime(n))
            {
                Console.WriteLine(n);
                count++;
            }
        }
        return count;
    }

    static int Main()
    {
        Console.WriteLine(Fib(20));
        Console.WriteLine(Gcd(3528, 3780));
        Console.WriteLine(Mix(1000));
        Console.WriteLine(Factorial(20));
        Console.WriteLine(Bits(0xF0F0F0F0));
        Console.WriteLine();
        return Primes(29);
    }
}
