// A library for `r2r dump`: attributes, generics, nested types, an interface, fields and locals of many types, and names in many scripts.
// Compiled by `mcs -target:library -out:Shapes.dll Shapes.cs`.
using System;
using System.Collections.Generic;

[assembly: CLSCompliant(false)]

namespace Geometry
{
    [Flags]
    public enum Sides : byte { None = 0, Left = 1, Right = 2 }

    public interface IArea
    {
        long Area(int scale);
    }

    [Obsolete("use Квадрат")]
    public class Square : IArea
    {
        protected int side;
        public static readonly string Greeting = "γειά, 世界, שלום";

        public Square(int side) { this.side = side; }

        public virtual long Area(int scale) { return (long)side * side * scale; }

        public class Corner
        {
            public ushort X, Y;
            public char Mark(byte[] places, ref int at) { return (char)places[at++]; }
        }
    }

    public class Квадрат : Square
    {
        public Квадрат(int side) : base(side) { }
        public override long Area(int scale) { return -base.Area(scale); }
        public Dictionary<string, List<int>> Índice(params object[] 項目) { return null; }
    }

    public struct Pair<TFirst, TSecond> where TFirst : class
    {
        public TFirst First;
        public TSecond Second;
        public TResult Join<TResult>(Func<TFirst, TSecond, TResult> with) { return with(First, Second); }
    }
}
