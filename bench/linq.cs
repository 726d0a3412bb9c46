// The same queries by .NET's Enumerable, over lists of objects: bench/run writes them in place of QUERIES and compiles this file.
using System;
using System.Collections.Generic;
using System.IO;
using System.Linq;
using System.Text;

class Employee { public int id; public string name; public int dept; public int? boss; public int salary; public int year; }
class Dept { public int id; public string title; public int floor; }

static class Linq
{
    static List<Employee> employees = new List<Employee>();
    static List<Dept> depts = new List<Dept>();
    static StreamWriter to = new StreamWriter(Console.OpenStandardOutput(), new UTF8Encoding(false), 1 << 16);

    static void Write(string text) { to.Write(text); }
    static void Int(int number) { to.Write(number); }
    static void Text(string text) { to.Write('"'); to.Write(text.Replace("\\", "\\\\").Replace("\"", "\\\"")); to.Write('"'); }

    static void Row(Employee e)
    {
        to.Write("{\"id\":"); to.Write(e.id);
        to.Write(",\"name\":"); Text(e.name);
        to.Write(",\"dept\":"); to.Write(e.dept);
        to.Write(",\"boss\":"); to.Write(e.boss.HasValue ? e.boss.Value.ToString() : "null");
        to.Write(",\"salary\":"); to.Write(e.salary);
        to.Write(",\"year\":"); to.Write(e.year);
        to.Write('}');
    }

    static void Items<T>(IEnumerable<T> items, Action<T> one)
    {
        var is_first = true;
        to.Write("{\"items\":[");
        foreach (var item in items) { if (!is_first) to.Write(','); is_first = false; one(item); }
        to.Write("]}\n");
    }

    static void Value(int number) { to.Write("{\"value\":"); to.Write(number); to.Write("}\n"); }
    static void Value(string text) { to.Write("{\"value\":"); Text(text); to.Write("}\n"); }

    static void Load(string folder)
    {
        foreach (var line in File.ReadLines(folder + "/employees.plain"))
        {
            var cells = line.Split(',');
            var boss = cells[3] == "" ? (int?)null : int.Parse(cells[3]);
            employees.Add(new Employee { id = int.Parse(cells[0]), name = cells[1], dept = int.Parse(cells[2]), boss = boss, salary = int.Parse(cells[4]), year = int.Parse(cells[5]) });
        }
        foreach (var line in File.ReadLines(folder + "/depts.plain"))
        {
            var cells = line.Split(',');
            depts.Add(new Dept { id = int.Parse(cells[0]), title = cells[1], floor = int.Parse(cells[2]) });
        }
    }

    static void Run(int query)
    {
        switch (query)
        {
            // QUERIES
        }
    }

    // FOLDER QUERY TIMES: the query by its number, so many times.
    static void Main(string[] words)
    {
        Load(words[0]);
        for (var left = int.Parse(words[2]); left > 0; left--) Run(int.Parse(words[1]));
        to.Flush();
    }
}
