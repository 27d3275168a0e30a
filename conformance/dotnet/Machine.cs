// The commands of docs/machine.md on a .NET runtime, by its public calls alone: reads a script, does it with the runtime's own
// objects, handles, weak table, finalizers and collections, and prints full lines for `hdt audit`.
//
//     Machine [--threads] < SCRIPT
//
// Without --threads the callers come in turn; with it each is a thread. Written for .NET 6 and later and for mono 6.8, which
// has no public DependentHandle.
//
// What the runtime must not see: a reference that the script does not have. So registers are arrays on the heap, each command
// is a function of its own that is not inlined, refusals throw nothing, and for a collection all threads end: a thread of its
// own asks for it, which overwrites its stack before.
using System;
using System.Collections.Generic;
using System.IO;
#if NET6_0_OR_GREATER
using System.Runtime;
#endif
using System.Runtime.CompilerServices;
using System.Runtime.ConstrainedExecution;
using System.Runtime.InteropServices;
using System.Text;
using System.Threading;

enum Kind { Short, Long, Strong, Pinned, Dep }

/// An object of a script. What pins it pins its body, since a GCHandle pins nothing that has references.
sealed class Node
{
    public readonly int Maker, Serial;
    public readonly Node[] Fields;
    public readonly ulong[] Body = new ulong[1];
    public readonly Watch Watch = new Watch();
    public bool Registered, Owned;
    public int Generation, Entry;

    public Node(int maker, int serial, int fields)
    {
        Maker = maker;
        Serial = serial;
        Fields = new Node[fields];
    }

    ~Node()
    {
        Finalized.Add(this);
    }

    public string Text { get { return "obj " + Maker + "." + Serial; } }
}

/// A long weak handle to each object ever made: whether it is there, as seen from outside.
sealed class Watch
{
    public GCHandle Weak;
}

/// Is finalized after all others, and leaves nothing of them on the stack of the runtime's finalizer thread.
sealed class Sweeper : CriticalFinalizerObject
{
    static int ran;

    /// How many were finalized.
    public static int Ran { get { return Volatile.Read(ref ran); } }

    [MethodImpl(MethodImplOptions.NoInlining)]
    public static void Make()
    {
        GC.KeepAlive(new Sweeper());
    }

    ~Sweeper()
    {
        World.Scrub();
        Interlocked.Increment(ref ran);
    }
}

/// What the finalizers of the last collection were given. A finalizer does nothing else.
static class Finalized
{
    static readonly List<Node> batch = new List<Node>();

    public static void Add(Node node)
    {
        lock (batch)
        {
            batch.Add(node);
        }
    }

    /// Moves them to the end of the queue, in rising identity, and says how many they are.
    [MethodImpl(MethodImplOptions.NoInlining)]
    public static int MoveTo(Queue<Node> queue)
    {
        lock (batch)
        {
            batch.Sort(Order);
            foreach (Node node in batch)
            {
                node.Registered = false;
                queue.Enqueue(node);
            }
            int count = batch.Count;
            batch.Clear();
            batch.TrimExcess();
            return count;
        }
    }

    static int Order(Node a, Node b)
    {
        return a.Maker != b.Maker ? a.Maker.CompareTo(b.Maker) : a.Serial.CompareTo(b.Serial);
    }
}

/// A live handle. `Had` says whether it had a target before the collection that goes on.
abstract class Handle
{
    public Kind Kind;
    public int Slot;
    public bool Had;
    public abstract Node Target { get; set; }

    /// Where the runtime stores it, or 0 where that cannot be seen.
    public long Address;
    public abstract void Free();

    /// Alone where no frame that stays can get the target.
    public bool HasTarget
    {
        [MethodImpl(MethodImplOptions.NoInlining)]
        get { return Target != null; }
    }
}

sealed class PlainHandle : Handle
{
    GCHandle real;

    public PlainHandle(Kind kind, Node target)
    {
        Kind = kind;
        real = GCHandle.Alloc(target, TypeOf(kind));
        Address = GCHandle.ToIntPtr(real).ToInt64();
    }

    static GCHandleType TypeOf(Kind kind)
    {
        switch (kind)
        {
            case Kind.Short: return GCHandleType.Weak;
            case Kind.Long: return GCHandleType.WeakTrackResurrection;
            default: return GCHandleType.Normal;
        }
    }

    public override Node Target
    {
        get { return (Node)real.Target; }
        set { real.Target = value; }
    }

    public override void Free()
    {
        real.Free();
    }
}

/// Pins the body of its target, which keeps the rest of it as its owner.
sealed class PinnedHandle : Handle
{
    static readonly ConditionalWeakTable<ulong[], Node> owners = new ConditionalWeakTable<ulong[], Node>();
    GCHandle real;

    public PinnedHandle(Node target)
    {
        Kind = Kind.Pinned;
        real = GCHandle.Alloc(BodyOf(target), GCHandleType.Pinned);
        Address = GCHandle.ToIntPtr(real).ToInt64();
    }

    static ulong[] BodyOf(Node target)
    {
        if (target == null)
        {
            return null;
        }
        lock (owners)
        {
            if (!target.Owned)
            {
                owners.Add(target.Body, target);
                target.Owned = true;
            }
        }
        return target.Body;
    }

    public override Node Target
    {
        get
        {
            ulong[] body = (ulong[])real.Target;
            Node owner = null;
            lock (owners)
            {
                return body != null && owners.TryGetValue(body, out owner) ? owner : null;
            }
        }
        set { real.Target = BodyOf(value); }
    }

    public override void Free()
    {
        real.Free();
    }
}

#if NET6_0_OR_GREATER
sealed class DependentOne : Handle
{
    DependentHandle real;

    public DependentOne(Node target, Node second)
    {
        Kind = Kind.Dep;
        real = new DependentHandle(target, target == null ? null : second);
    }

    public override Node Target
    {
        get { return (Node)real.Target; }
        set { real.Target = null; }
    }

    public Node Second
    {
        get { return (Node)real.Dependent; }
        set { real.Dependent = value; }
    }

    public override void Free()
    {
        real.Dispose();
    }
}
#else
/// Where the runtime has no public dependent handle: a weak table of its own with one entry, and a long weak handle to the key.
sealed class DependentOne : Handle
{
    readonly ConditionalWeakTable<Node, Node> attached = new ConditionalWeakTable<Node, Node>();
    GCHandle real;

    public DependentOne(Node target, Node second)
    {
        Kind = Kind.Dep;
        real = GCHandle.Alloc(target, GCHandleType.WeakTrackResurrection);
        if (target != null)
        {
            attached.Add(target, second);
        }
    }

    public override Node Target
    {
        get { return (Node)real.Target; }
        set
        {
            Detach();
            real.Target = null;
        }
    }

    /// The table has a finalizer, so what is in it would outlive it by a collection.
    void Detach()
    {
        Node target = Target;
        if (target != null)
        {
            attached.Remove(target);
        }
    }

    public Node Second
    {
        get
        {
            Node target = Target, second = null;
            return target != null && attached.TryGetValue(target, out second) ? second : null;
        }
        set
        {
            Detach();
            attached.Add(Target, value);
        }
    }

    public override void Free()
    {
        Detach();
        real.Free();
    }
}
#endif

/// Numbers for slots. Where the runtime stores a handle is a number of its kind's blocks from when it is first seen, so that
/// a place which is given twice shows. Dependent handles and entries of the weak table, whose places cannot be seen, get the
/// least number.
sealed class Slots
{
    const int Rows = 64, Blocks = 256;
    readonly Dictionary<Tuple<Kind, long>, int> known = new Dictionary<Tuple<Kind, long>, int>();
    readonly Dictionary<long, int> taken = new Dictionary<long, int>();
    readonly SortedSet<int> free = new SortedSet<int>();
    readonly int[] last = new int[5];
    int blocks;

    /// The slot of a handle that was made, and the marks of its line.
    public int Give(Kind kind, long address, out string marks)
    {
        int slot;
        if (address != 0 && (taken.TryGetValue(address, out slot) || known.TryGetValue(Tuple.Create(kind, address), out slot)))
        {
            taken[address] = slot;
            marks = " @" + slot;
            return slot;
        }
        if (address == 0 && free.Count > 0)
        {
            slot = free.Min;
            free.Remove(slot);
            marks = " @" + slot;
            return slot;
        }
        slot = Next(kind, out marks);
        if (address != 0)
        {
            known[Tuple.Create(kind, address)] = slot;
            taken[address] = slot;
        }
        return slot;
    }

    /// A number that the kind never had, of its last block or of one more.
    int Next(Kind kind, out string marks)
    {
        bool grows = (last[(int)kind] + 1) % Rows == 0 || last[(int)kind] == 0;
        last[(int)kind] = grows ? Rows * (blocks + 1) : last[(int)kind] + 1;
        marks = " @" + last[(int)kind];
        if (grows)
        {
            blocks += kind == Kind.Dep ? 2 : 1;
            marks += kind == Kind.Dep ? " +" + (blocks - 1) + "," + blocks : " +" + blocks;
        }
        if (blocks > Blocks)
        {
            throw new Stop(3, "the table of " + Blocks + " blocks is full, and .NET's never is");
        }
        return last[(int)kind];
    }

    public void Free(long address, int slot)
    {
        if (address != 0)
        {
            taken.Remove(address);
        }
        else
        {
            free.Add(slot);
        }
    }
}

/// The weak table, and where its entries are: a slot has the watch of its key, or null where it is idle.
sealed class WeakTable
{
    readonly ConditionalWeakTable<Node, Node> real = new ConditionalWeakTable<Node, Node>();
    readonly SortedDictionary<int, Watch> keys = new SortedDictionary<int, Watch>();

#if !NET6_0_OR_GREATER
    /// Makes room for many entries. Mono's table leaves its array for another one when it grows; where that array is old, a
    /// collection of new objects alone takes it for one in use, and with it what it had, though the entry left the table
    /// since.
    public WeakTable()
    {
        const int Room = 4096;
        Node[] keys = new Node[Room];
        for (int at = 0; at < Room; at++)
        {
            keys[at] = new Node(0, 0, 0);
            GC.SuppressFinalize(keys[at]);
            real.Add(keys[at], null);
        }
        foreach (Node key in keys)
        {
            real.Remove(key);
        }
    }
#endif

    public bool Has(Node key)
    {
        Node value;
        return real.TryGetValue(key, out value);
    }

    public Node Find(Node key)
    {
        Node value;
        return real.TryGetValue(key, out value) ? value : null;
    }

    /// Adds an entry in the least idle slot, or in a new one, and says the marks of the line.
    public string Add(Node key, Node value, Slots slots)
    {
        string marks = null;
        int slot = 0;
        foreach (KeyValuePair<int, Watch> pair in keys)
        {
            if (pair.Value == null)
            {
                slot = pair.Key;
                marks = " @" + slot;
                break;
            }
        }
        if (slot == 0)
        {
            slot = slots.Give(Kind.Dep, 0, out marks);
        }
        real.Add(key, value);
        keys[slot] = key.Watch;
        key.Entry = slot;
        return marks;
    }

    public void Remove(Node key)
    {
        real.Remove(key);
        keys[key.Entry] = null;
    }

    /// How many entries there are. Where the runtime does not say it, how many have a key.
    [MethodImpl(MethodImplOptions.NoInlining)]
    public int Count()
    {
        int count = 0;
#if NET6_0_OR_GREATER
        foreach (KeyValuePair<Node, Node> _ in real)
        {
            count++;
        }
#else
        foreach (Watch watch in keys.Values)
        {
            count += watch != null && World.IsThere(watch) ? 1 : 0;
        }
#endif
        return count;
    }

    /// Slots whose key is gone are idle.
    public void Forget()
    {
        foreach (int slot in new List<int>(keys.Keys))
        {
            if (keys[slot] != null && !World.IsThere(keys[slot]))
            {
                keys[slot] = null;
            }
        }
    }
}

/// Ends the run with a status and a message.
sealed class Stop : Exception
{
    public readonly int Status;

    public Stop(int status, string why) : base(why)
    {
        Status = status;
    }
}

struct Command
{
    public string Word;
    public Kind Kind;
    public bool Fin;
    public int A, B, C;
    public ulong Number;
}

sealed class Caller
{
    public readonly int Number;
    public readonly List<Command> Commands = new List<Command>();
    public readonly Node[] Objects = new Node[16];
    public readonly int[] Handles = new int[16];
    public int Made, Done;

    public bool HasNext { get { return Done < Commands.Count; } }

    public Command Next { get { return Commands[Done]; } }

    /// The handle that is being made or freed.
    public Handle Handle;

    public Caller(int number)
    {
        Number = number;
    }
}

/// What all callers share. Its lock is held where a command takes effect and its line is taken; only the runtime's own making and
/// freeing of a handle are outside of it.
sealed class World
{
    const int Cells = 1000000;
    // How often finalizers are waited for again, at most.
    const int MostTurns = 100;
    readonly StringBuilder text = new StringBuilder();
    readonly Node[] statics = new Node[16];
    readonly int[] board = new int[16];
    readonly Dictionary<int, Handle> handles = new Dictionary<int, Handle>();
    readonly Slots slots = new Slots();
    readonly WeakTable weak = new WeakTable();
    readonly Queue<Node> queue = new Queue<Node>();
    readonly List<Watch> watches = new List<Watch>();
    readonly Dictionary<Watch, int> sizes = new Dictionary<Watch, int>();
    readonly Action<Caller, Command> reply, look, collect, report, make, give, take, free;
    Node[] older = new Node[0];
    Caller collector;
    int cells, entries, collections, counted;

    public static bool IsThere(Watch watch)
    {
        return IsTarget(watch.Weak);
    }

    [MethodImpl(MethodImplOptions.NoInlining)]
    static bool IsTarget(GCHandle handle)
    {
        return handle.Target != null;
    }

    public string Text
    {
        get { return text + "end handles " + handles.Count + " objects " + watches.Count + " collections " + collections + "\n"; }
    }

    /// Overwrites what earlier calls left on the stack and in registers, which a runtime may take for references.
    [MethodImpl(MethodImplOptions.NoInlining)]
    public static unsafe int Scrub()
    {
        const int Bytes = 65536;
        byte* room = stackalloc byte[Bytes];
        for (int at = 0; at < Bytes; at++)
        {
            room[at] = 0;
        }
        return Sum(room[Bytes / 2], 0, 0, 0, 0, 0, 0, 0);
    }

    [MethodImpl(MethodImplOptions.NoInlining)]
    static int Sum(int a, int b, int c, int d, int e, int f, int g, int h)
    {
        return a + b + c + d + e + f + g + h;
    }

    /// Does what has references, or makes anything, deeper on the stack than all that waits, so that `Scrub` reaches all that
    /// is left of it: even where the runtime would put the next object.
    [MethodImpl(MethodImplOptions.NoInlining)]
    static unsafe void Apart(Action<Caller, Command> act, Caller me, Command command)
    {
        const int Bytes = 4096;
        byte* room = stackalloc byte[Bytes];
        room[Bytes / 2] = 1;
        act(me, command);
    }

    static int Collections()
    {
        int count = 0;
        for (int generation = 0; generation <= GC.MaxGeneration; generation++)
        {
            count += GC.CollectionCount(generation);
        }
        return count;
    }

    void Print(Caller me, string reply)
    {
        me.Done++;
        text.Append(me.Number).Append(' ').Append(me.Done).Append(' ').Append(reply).Append('\n');
    }

    public World()
    {
        reply = (me, command) => Print(me, Reply(me, command));
        look = Look;
        collect = Collect;
        report = Report;
        make = (me, command) => me.Handle = Made(me, command);
        give = Give;
        take = Take;
        free = (me, command) => me.Handle.Free();
    }

    /// Whether a caller goes on. It does not where it or another one wants to collect: then all threads end, with their
    /// stacks, and what collects is a thread of its own.
    public bool GoesOn(Caller me)
    {
        lock (this)
        {
            if (collector == null && me.Next.Word == "collect")
            {
                collector = me;
            }
            return collector == null;
        }
    }

    /// Does a caller's next command, which is no collection.
    public void Step(Caller me)
    {
        if (me.Next.Word == "hnew" || me.Next.Word == "hfree")
        {
            StepOutside(me, me.Next);
            return;
        }
        lock (this)
        {
            Apart(reply, me, me.Next);
        }
    }

    /// Makes or frees a handle. The runtime's own is there before the line of `hnew` is taken, and gone after that of `hfree`.
    void StepOutside(Caller me, Command command)
    {
        bool makes = command.Word == "hnew";
        if (makes)
        {
            Apart(make, me, command);
        }
        lock (this)
        {
            Apart(makes ? give : take, me, command);
        }
        if (!makes && me.Handle != null)
        {
            Apart(free, me, command);
        }
    }

    /// Does the collection that is wanted, while no caller's thread is there.
    public void CollectAlone()
    {
        Caller me = collector;
        if (me == null)
        {
            return;
        }
        Command command = me.Next;
        Check();
        Apart(look, me, command);
        Scrub();
        Apart(collect, me, command);
        Scrub();
        Apart(report, me, command);
        Check();
        collector = null;
    }

    /// From here on the runtime collects for the script alone.
    public void Begin()
    {
        counted = Collections();
    }

    public void Check()
    {
        if (Collections() != counted)
        {
            throw new Stop(4, "the runtime collected when it was not asked to: give it more room for new objects");
        }
    }

    void Give(Caller me, Command command)
    {
        string marks;
        me.Handle.Slot = slots.Give(me.Handle.Kind, me.Handle.Address, out marks);
        handles[me.Handle.Slot] = me.Handle;
        me.Handles[command.A] = me.Handle.Slot;
        Print(me, "ok" + marks);
    }

    void Take(Caller me, Command command)
    {
        string refusal = Live(me, command.A, out me.Handle);
        if (refusal == null)
        {
            handles.Remove(me.Handle.Slot);
            slots.Free(me.Handle.Address, me.Handle.Slot);
            me.Handles[command.A] = 0;
        }
        Print(me, refusal ?? "ok @" + me.Handle.Slot);
    }

    [MethodImpl(MethodImplOptions.NoInlining)]
    static Handle Made(Caller me, Command command)
    {
        Node target = me.Objects[command.B];
        switch (command.Kind)
        {
            case Kind.Dep: return new DependentOne(target, me.Objects[command.C]);
            case Kind.Pinned: return new PinnedHandle(target);
            default: return new PlainHandle(command.Kind, target);
        }
    }

    string Live(Caller me, int register, out Handle handle)
    {
        handle = null;
        if (me.Handles[register] == 0)
        {
            return "empty";
        }
        return handles.TryGetValue(me.Handles[register], out handle) ? null : "notlive";
    }

    // Collections.

    /// What there is before a collection: which handles have a target, how many entries there are, and the objects of an older
    /// generation, which are kept by hand, since a runtime may have fewer generations.
    void Look(Caller me, Command command)
    {
        entries = weak.Count();
        foreach (Handle handle in handles.Values)
        {
            handle.Had = handle.HasTarget;
        }
        older = new Node[watches.Count];
        for (int at = 0; at < older.Length; at++)
        {
            older[at] = OlderThan(watches[at], command.A);
        }
    }

    [MethodImpl(MethodImplOptions.NoInlining)]
    static Node OlderThan(Watch watch, int generation)
    {
        Node node = (Node)watch.Weak.Target;
        return node.Generation > generation ? node : null;
    }

    void Collect(Caller me, Command command)
    {
        int before = Sweeper.Ran;
        Sweeper.Make();
        Scrub();
        GC.Collect(Math.Min(command.A, GC.MaxGeneration));
        GC.WaitForPendingFinalizers();
        for (int turn = 0; turn < MostTurns && Sweeper.Ran == before; turn++)
        {
            // Mono's wait may end by the signal of a round of its finalizer thread that was over before.
            Thread.Sleep(1);
            GC.WaitForPendingFinalizers();
        }
    }

    /// The report of a collection, as it is seen from outside. The array of older objects is emptied, so that it keeps none
    /// of them should the runtime still find it later.
    void Report(Caller me, Command command)
    {
        Array.Clear(older, 0, older.Length);
        counted = Collections();
        int revived = Finalized.MoveTo(queue);
        int[] lost = new int[5];
        foreach (Handle handle in handles.Values)
        {
            lost[(int)handle.Kind] += handle.Had && !handle.HasTarget ? 1 : 0;
        }
        lost[(int)Kind.Dep] += entries - weak.Count();
        weak.Forget();
        int removed = watches.RemoveAll(IsGone);
        int kept = 0;
        foreach (Watch watch in watches)
        {
            kept += Survives(watch, command.A) ? 1 : 0;
        }
        collections++;
        Print(me, "kept " + kept + " removed " + removed + " short " + lost[(int)Kind.Short] + " long " + lost[(int)Kind.Long] +
            " dep " + lost[(int)Kind.Dep] + " revived " + revived);
    }

    bool IsGone(Watch watch)
    {
        if (IsThere(watch))
        {
            return false;
        }
        watch.Weak.Free();
        cells -= sizes[watch];
        sizes.Remove(watch);
        return true;
    }

    /// Whether an object was collected and stayed; it is a generation older then.
    [MethodImpl(MethodImplOptions.NoInlining)]
    static bool Survives(Watch watch, int generation)
    {
        Node node = (Node)watch.Weak.Target;
        if (node.Generation > generation)
        {
            return false;
        }
        node.Generation = Math.Min(node.Generation + 1, 2);
        return true;
    }

    // All other commands, under the lock.

    [MethodImpl(MethodImplOptions.NoInlining)]
    string Reply(Caller me, Command it)
    {
        switch (it.Word)
        {
            case "new": return New(me, it);
            case "copy": return Stored(ref me.Objects[it.A], me.Objects[it.B]);
            case "drop": return Stored(ref me.Objects[it.A], null);
            case "sput": return Stored(ref statics[it.A], me.Objects[it.B]);
            case "sget": return Loaded(me, it.A, statics[it.B]);
            case "final": return Loaded(me, it.A, queue.Count > 0 ? queue.Dequeue() : null, "none");
            case "hput": board[it.A] = me.Handles[it.B]; return "ok";
            case "hpick": me.Handles[it.A] = board[it.B]; return "ok";
            case "hget": return GetTarget(me, it);
            case "hset": return SetTarget(me, it);
            case "hsec": return SetSecond(me, it);
            case "hdep": return GetSecond(me, it);
            case "get": return OnObject(me, it, me.Objects[it.B]);
            case "cfind": return OnObject(me, it, me.Objects[it.B]);
            default: return OnObject(me, it, me.Objects[it.A]);
        }
    }

    static string Stored(ref Node place, Node node)
    {
        place = node;
        return "ok";
    }

    static string Loaded(Caller me, int register, Node node, string nothing = "null")
    {
        me.Objects[register] = node;
        return node == null ? nothing : node.Text;
    }

    [MethodImpl(MethodImplOptions.NoInlining)]
    string New(Caller me, Command it)
    {
        cells += it.B + 3;
        if (cells > Cells)
        {
            throw new Stop(3, "the heap of " + Cells + " cells is full, and .NET's never is");
        }
        Node node = new Node(me.Number, ++me.Made, it.B) { Registered = it.Fin };
        if (!it.Fin)
        {
            GC.SuppressFinalize(node);
        }
        node.Watch.Weak = GCHandle.Alloc(node, GCHandleType.WeakTrackResurrection);
        watches.Add(node.Watch);
        sizes.Add(node.Watch, it.B + 3);
        return Loaded(me, it.A, node);
    }

    /// What needs the object of a register, which is refused where that is null.
    [MethodImpl(MethodImplOptions.NoInlining)]
    string OnObject(Caller me, Command it, Node node)
    {
        if (node == null)
        {
            return "nullref";
        }
        switch (it.Word)
        {
            case "set": return it.B < node.Fields.Length ? Stored(ref node.Fields[it.B], me.Objects[it.C]) : "badfield";
            case "get": return it.C < node.Fields.Length ? Loaded(me, it.A, node.Fields[it.C]) : "badfield";
            case "val": node.Body[0] = it.Number; return "ok";
            case "read": return "value " + node.Body[0];
            case "gen": return "gen " + node.Generation;
            case "suppress": return Register(node, false);
            case "reregister": return Register(node, true);
            case "cadd": return weak.Has(node) ? "present" : "ok" + weak.Add(node, me.Objects[it.B], slots);
            case "cfind": return Loaded(me, it.A, weak.Find(node), weak.Has(node) ? "null" : "absent");
            default: return Remove(node);
        }
    }

    string Remove(Node key)
    {
        if (!weak.Has(key))
        {
            return "absent";
        }
        weak.Remove(key);
        return "ok";
    }

    /// One registration: the runtime might queue an object twice, or take a second one for the end of a suppression.
    static string Register(Node node, bool wanted)
    {
        if (wanted && !node.Registered)
        {
            GC.ReRegisterForFinalize(node);
        }
        if (!wanted && node.Registered)
        {
            GC.SuppressFinalize(node);
        }
        node.Registered = wanted;
        return "ok";
    }

    [MethodImpl(MethodImplOptions.NoInlining)]
    string GetTarget(Caller me, Command it)
    {
        Handle handle;
        return Live(me, it.B, out handle) ?? Loaded(me, it.A, handle.Target);
    }

    [MethodImpl(MethodImplOptions.NoInlining)]
    string SetTarget(Caller me, Command it)
    {
        Handle handle;
        string refusal = Live(me, it.A, out handle);
        if (refusal != null)
        {
            return refusal;
        }
        if (handle.Kind == Kind.Dep && me.Objects[it.B] != null)
        {
            return "wrongkind";
        }
        handle.Target = me.Objects[it.B];
        return "ok";
    }

    [MethodImpl(MethodImplOptions.NoInlining)]
    string SetSecond(Caller me, Command it)
    {
        Handle handle;
        string refusal = Live(me, it.A, out handle);
        if (refusal != null || handle.Kind != Kind.Dep)
        {
            return refusal ?? "wrongkind";
        }
        if (!handle.HasTarget)
        {
            return "nullref";
        }
        ((DependentOne)handle).Second = me.Objects[it.B];
        return "ok";
    }

    [MethodImpl(MethodImplOptions.NoInlining)]
    string GetSecond(Caller me, Command it)
    {
        Handle handle;
        string refusal = Live(me, it.B, out handle);
        if (refusal != null || handle.Kind != Kind.Dep)
        {
            return refusal ?? "wrongkind";
        }
        return Loaded(me, it.A, ((DependentOne)handle).Second);
    }
}

/// Reads a script. A command that no public call of .NET does is refused before anything is done.
static class Script
{
    static readonly Dictionary<string, string> forms = new Dictionary<string, string>
    {
        {"new", "rf"}, {"set", "rir"}, {"get", "rri"}, {"val", "rv"}, {"read", "r"}, {"copy", "rr"}, {"drop", "r"},
        {"sput", "sr"}, {"sget", "rs"}, {"gen", "r"}, {"suppress", "r"}, {"reregister", "r"}, {"final", "r"}, {"collect", "g"},
        {"hget", "rh"}, {"hset", "hr"}, {"hsec", "hr"}, {"hdep", "rh"}, {"hfree", "h"}, {"hput", "sh"}, {"hpick", "hs"},
        {"cadd", "rr"}, {"cfind", "rr"}, {"cremove", "r"}
    };
    static readonly Dictionary<string, string> lacking = new Dictionary<string, string>
    {
        {"hvar", "variable handles"}, {"hup", "ref-counted handles"}, {"hdown", "ref-counted handles"},
        {"addr", "the number of an object's cell"}, {"trim", "giving blocks of handles back"}, {"gcroot", "what keeps an object"}
    };

    public static List<Caller> Read(string text)
    {
        List<Caller> callers = new List<Caller>();
        int now = 0, number = 0;
        foreach (string line in text.Split('\n'))
        {
            number++;
            string bare = (line.EndsWith("\r") ? line.Substring(0, line.Length - 1) : line).Split('#')[0];
            string[] words = bare.Split(new[] { ' ', '\t' }, StringSplitOptions.RemoveEmptyEntries);
            Command command = new Command();
            if (words.Length == 0)
            {
                continue;
            }
            if (words[0] == "caller" && words.Length == 2)
            {
                now = (int)Number(words[1], 15, number);
                continue;
            }
            if (words[0] == "hnew")
            {
                command = ReadMake(words, number);
            }
            else
            {
                command = ReadCommand(words, number);
            }
            while (callers.Count <= now)
            {
                callers.Add(new Caller(callers.Count));
            }
            callers[now].Commands.Add(command);
        }
        return callers;
    }

    static Command ReadCommand(string[] words, int line)
    {
        string form, missing;
        Command command = new Command { Word = words[0] };
        if (lacking.TryGetValue(words[0], out missing))
        {
            throw new Stop(3, "line " + line + ": " + words[0] + ": .NET has no public call for " + missing);
        }
        command.Fin = words[0] == "new" && words.Length == 4 && words[3] == "fin";
        if (!forms.TryGetValue(words[0], out form) || words.Length != form.Length + 1 + (command.Fin ? 1 : 0))
        {
            throw new Stop(3, "line " + line + ": no command");
        }
        int[] operands = new int[3];
        for (int at = 0; at < form.Length; at++)
        {
            ulong value = Operand(form[at], words[at + 1], line);
            operands[at] = form[at] == 'v' ? 0 : (int)value;
            command.Number = value;
        }
        command.A = operands[0];
        command.B = operands[1];
        command.C = operands[2];
        return command;
    }

    static Command ReadMake(string[] words, int line)
    {
        string kind = words.Length > 2 ? words[2] : "";
        if (kind == "var" || kind == "ref")
        {
            throw new Stop(3, "line " + line + ": hnew " + kind + ": .NET has no public call for handles of this kind");
        }
        int which = Array.IndexOf(new[] { "short", "long", "strong", "pinned", "dep" }, kind);
        if (which < 0 || words.Length != (kind == "dep" ? 5 : 4))
        {
            throw new Stop(3, "line " + line + ": no command");
        }
        Command command = new Command { Word = "hnew", Kind = (Kind)which };
        command.A = (int)Operand('h', words[1], line);
        command.B = (int)Operand('r', words[3], line);
        command.C = kind == "dep" ? (int)Operand('r', words[4], line) : 0;
        return command;
    }

    static ulong Operand(char form, string word, int line)
    {
        switch (form)
        {
            case 'f': return Number(word, 61, line);
            case 'i': return Number(word, 255, line);
            case 'g': return Number(word, 2, line);
            case 's': return Number(word, 15, line);
            case 'v': return Number(word, ulong.MaxValue, line);
            default: return Number(word[0] == form ? word.Substring(1) : "", 15, line);
        }
    }

    static ulong Number(string word, ulong most, int line)
    {
        ulong value;
        if (word == "" || word.Trim("0123456789".ToCharArray()) != "" || !ulong.TryParse(word, out value) || value > most)
        {
            throw new Stop(3, "line " + line + ": no number up to " + most + ", or no register");
        }
        return value;
    }
}

static class Program
{
    static int Main(string[] words)
    {
        bool threads = words.Length == 1 && words[0] == "--threads";
        if (words.Length > 0 && !threads)
        {
            Console.Error.WriteLine("usage: Machine [--threads] < SCRIPT");
            return 2;
        }
        World world = Ready();
        try
        {
            Run(world, Script.Read(Input()), threads);
        }
        catch (Stop stop)
        {
            End(stop);
        }
        byte[] text = Encoding.ASCII.GetBytes(world.Text);
        using (Stream output = Console.OpenStandardOutput())
        {
            output.Write(text, 0, text.Length);
        }
        return 0;
    }

    [MethodImpl(MethodImplOptions.NoInlining)]
    static World Ready()
    {
        World world = new World();
        World.Scrub();
        GC.Collect();
        world.Begin();
        return world;
    }

    static string Input()
    {
        using (StreamReader reader = new StreamReader(Console.OpenStandardInput(), Encoding.GetEncoding("iso-8859-1")))
        {
            return reader.ReadToEnd();
        }
    }

    static void End(Stop stop)
    {
        Console.Error.WriteLine("Machine: " + stop.Message);
        Environment.Exit(stop.Status);
    }

    /// Starts a thread for each caller that has commands left, or for the first alone, again after each collection. So no
    /// thread is there while the runtime collects but the one that asks for it, and the main thread, which never has an
    /// object.
    static void Run(World world, List<Caller> callers, bool threads)
    {
        List<Caller> left = callers.FindAll(caller => caller.HasNext);
        while (left.Count > 0)
        {
            int count = threads ? left.Count : 1;
            Barrier together = new Barrier(count);
            List<Thread> started = left.GetRange(0, count).ConvertAll(caller => Begun(() => RunCaller(world, caller, together)));
            started.ForEach(thread => thread.Join());
            Begun(world.CollectAlone).Join();
            left = callers.FindAll(caller => caller.HasNext);
        }
        world.Check();
    }

    static Thread Begun(Action act)
    {
        Thread thread = new Thread(() =>
        {
            try
            {
                act();
            }
            catch (Stop stop)
            {
                End(stop);
            }
        });
        thread.Start();
        return thread;
    }

    /// Begins together with the others, and lets them pass now and then.
    static void RunCaller(World world, Caller caller, Barrier together)
    {
        Random chance = new Random(caller.Number + 16 * caller.Done);
        together.SignalAndWait();
        while (caller.HasNext && world.GoesOn(caller))
        {
            world.Step(caller);
            if (together.ParticipantCount > 1 && chance.Next(8) == 0)
            {
                Thread.Sleep(0);
            }
        }
    }
}
