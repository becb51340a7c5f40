"""The programs of `large`, each with its configuration: each stands at one limit, or makes one list long.

`PROGRAMS` has for each name what makes it: a function that gives the configuration and the program, as texts.
"""

CLIENTS = 16
THREADS = 16
LEVELS = 64
LONGEST = 1048576
AUTOLOCK = '[[autolock]]\nmethod = "*.*"\nlevel = "write"\n'

CHAIN = '''class Node { long v; ref next; synchronized get() { return this.v; } }
class Flag { long n; synchronized set(k) { this.n = k; } synchronized get() { return this.n; } }
class Main { static ref head; static ref flag; }
'''
COUNTER = '''class Counter { long n; synchronized add() { this.n = this.n + 1; } }
class Main { static ref c; }
'''


def entry(section, **keys):
    """An entry of a section of the configuration."""
    lines = ['%s = %s' % (key, value if isinstance(value, int) else '"%s"' % value) for key, value in keys.items()]
    return '[[%s]]\n%s\n' % (section, '\n'.join(lines))


def thread(client, body):
    return 'thread %d {\n%s\n}\n' % (client, body)


def chained(count):
    """Statements that make `h` a chain of so many objects."""
    return ('  var h = null; var i = 0;\n'
            '  while (i < %d) { var x = new Node(); x.v = i; x.next = h; h = x; i = i + 1; }' % count)


def everybody(first, last, body):
    """Threads of one body, as many as a client may have, for each of these clients."""
    return ''.join(thread(client, body) for client in range(first, last + 1) for _ in range(THREADS))


def threads():
    """All clients with all their threads, each of which adds 20 times to one counter."""
    body = '  Main.c = new Counter(); var i = 0; while (i < 20) { Main.c.add(); i = i + 1; }'
    return 'clients = %d\n' % CLIENTS, COUNTER + everybody(1, CLIENTS, body)


def waiters():
    """240 threads that wait on one monitor, and are woken by one notification."""
    waiting = THREADS * (CLIENTS - 1)
    text = '''class Gate {
  long open; long here;
  synchronized pass() { this.here = this.here + 1; while (this.open == 0) { wait(this); } }
  synchronized wake() { if (this.here < %d) { return false; } this.open = 1; notifyAll(this); return true; }
}
class Main { static ref gate; }
''' % waiting
    text += everybody(1, CLIENTS - 1, '  Main.gate = new Gate(); Main.gate.pass();')
    text += thread(CLIENTS, '  Main.gate = new Gate(); while (!Main.gate.wake()) { }')
    return 'clients = %d\n' % CLIENTS, text


def requests():
    """240 threads that ask to read, 15 clients each under 16 locks, which a client holds that is then lost."""
    text = '''class Cell { long n; synchronized add() { this.n = this.n + 1; } synchronized look() { return this.n; } }
class Main { static ref cells; static ref tick; static ref held; }
'''
    text += thread(1, '  var a = new ref[16]; var i = 0;\n'
                      '  while (i < 16) { a[i] = new Cell(); i = i + 1; }\n'
                      '  Main.tick = new Cell(); Main.cells = a;\n'
                      '  %s Main.held = new Cell(); while (true) { Main.tick.add(); } %s'
                      % (' '.join('synchronized (a[%d]) {' % i for i in range(16)), '}' * 16))
    for client in range(2, CLIENTS + 1):
        for number in range(THREADS):
            text += thread(client, '  while (Main.held == null) { }\n  print(Main.cells[%d].look());' % number)
    config = 'clients = %d\n' % CLIENTS + AUTOLOCK + entry('autolock', method='Cell.look', level='read')
    return config + entry('lose', client=1, after=2000), text


def prints():
    """500,000 values that one thread prints."""
    return 'clients = 1\n', thread(1, '  var i = 0; while (i < 500000) { print(i); i = i + 1; }')


def chain():
    """A chain of 100,000 objects that is published at once, and that another client walks."""
    text = CHAIN + thread(1, chained(100000) + '\n  Main.head = h;')
    text += thread(2, '  while (Main.head == null) { }\n  var p = Main.head; var s = 0;\n'
                      '  while (p != null) { s = s + p.v; p = p.next; }\n  print(s);')
    return 'clients = 2\n', text


def flushes():
    """A chain of 5,000 objects under their monitors, at a client that keeps one object."""
    text = CHAIN + thread(1, chained(5000) + '\n  Main.head = h;')
    text += thread(2, '  while (Main.head == null) { }\n  var p = Main.head; var s = 0;\n'
                      '  while (p != null) { s = s + p.get(); p = p.next; }\n  print(s);')
    return 'clients = 2\nresident = 1\n', text


def breaks():
    """A connection that breaks 1,000 times."""
    body = '  Main.c = new Counter(); var i = 0; while (i < 3000) { Main.c.add(); i = i + 1; }'
    broken = ''.join(entry('break', client=1, after=number) for number in range(1000))
    return 'clients = 2\n' + broken, COUNTER + thread(1, body) + thread(2, body)


def locks():
    """20,000 locks that a client holds when it is lost."""
    body = chained(20000) + '\n  Main.head = h; var p = Main.head;\n'
    body += '  while (p != null) { p.get(); p = p.next; }\n  while (true) { Main.head.get(); }'
    config = 'clients = 2\nresident = 1000000\n' + entry('lose', client=1, after=41000)
    return config, CHAIN + thread(1, body) + thread(2, '  print(1);')


def recalls():
    """20,000 locks that one client holds, and another asks for, one after the other."""
    walk = '  while (p != null) { s = s + p.get(); p = p.next; }\n  print(s);'
    text = CHAIN + thread(1, chained(20000) + '\n  Main.head = h; var p = h; var s = 0;\n%s\n'
                             '  Main.flag = new Flag(); Main.flag.set(1);' % walk)
    text += thread(2, '  while (Main.flag == null) { }\n  while (Main.flag.get() == 0) { }\n'
                      '  var p = Main.head; var s = 0;\n' + walk)
    return 'clients = 2\nresident = 1000000\n', text


def block(objects=3000, fields=60):
    """A list of objects that one client writes in one block under a named lock while the other holds them."""
    names = ['f%d' % number for number in range(fields)]
    text = 'class Node { ref next; %s fill(k) { %s } }\n' % (
        ' '.join('long %s;' % name for name in names), ' '.join('this.%s = k;' % name for name in names))
    text += '''class Flag { long n; synchronized set(k) { this.n = k; } synchronized get() { return this.n; } }
class Work { long x; writeAll(head) { var p = head; while (p != null) { p.fill(7); p = p.next; } } }
class Main { static ref head; static ref flag; static ref work; }
'''
    text += thread(1, '  var h = null; var i = 0;\n'
                      '  while (i < %d) { var n = new Node(); n.next = h; h = n; i = i + 1; }\n'
                      '  Main.work = new Work(); Main.head = h; Main.flag = new Flag();\n'
                      '  var f = Main.flag;\n  while (f.get() == 0) { }\n'
                      '  Main.work.writeAll(Main.head);\n  f.set(2);' % objects)
    text += thread(2, '  while (Main.flag == null) { }\n  var p = Main.head; var c = 0;\n'
                      '  while (p != null) { p = p.next; c = c + 1; }\n  print(c);\n  Main.flag.set(1);\n'
                      '  while (Main.flag.get() != 2) { }\n  print(Main.head.f0);')
    config = 'clients = 2\nresident = 1000000\n' + AUTOLOCK
    config += entry('named_lock', name='g', method='Work.writeAll', level='write')
    return config + entry('guard', field='Node.*', lock='g'), text


def nested(levels):
    """Threads each of which nests one thing in itself, up to so many levels; a thread's own block is the first."""
    inner = levels - 2
    bodies = [
        'print(%s1%s);' % ('(' * inner, ')' * inner),
        'print(%s1);' % ('-' * inner),
        'print(%s1);' % ('1 + ' * inner),
        'print(%strue%s);' % ('true && (' * (inner // 2), ')' * (inner // 2)),
        'var a = new long[1]; print(%s0%s);' % ('a[' * inner, ']' * inner),
        'var c = new Cell(); print(c%s.n);' % ('.same()' * (inner - 1)),
        'var c = new Cell(); print(%s1%s);' % ('c.of(' * (inner // 2), ')' * (inner // 2)),
        'if (true) { ' * inner + 'print(1);' + ' }' * inner,
        'while (x < 1) { ' * inner + 'x = x + 1;' + ' }' * inner,
        'var c = new Cell(); ' + 'synchronized (c) { ' * inner + 'print(1);' + ' }' * inner,
        'if (false) { }' + ' else if (false) { }' * (inner - 1) + ' else { print(1); }',
        'var c = new Cell(); print(c.down(%d));' % inner,
    ]
    text = '''class Cell {
  long n;
  same() { return this; }
  of(x) { return x; }
  down(n) { if (n == 0) { return 0; } return this.down(n - 1) + 1; }
}
'''
    return 'clients = 1\n' + AUTOLOCK, text + ''.join(thread(1, '  var x = 0; ' + body) for body in bodies)


def nesting():
    """All that nests, as deep as it may."""
    return nested(LEVELS)


def too_deep():
    """All that nests, a level deeper."""
    return nested(LEVELS + 1)


def text():
    """A text as long as it may be, of one thread with tens of thousands of statements."""
    head, tail = 'thread 1 {\nvar x = 0;\n', 'print(x);\n}\n'
    one = 'x = x + 1;\n'
    whole = head + one * ((LONGEST - len(head) - len(tail)) // len(one)) + tail
    return 'clients = 1\n', whole + ' ' * (LONGEST - len(whole))


def names():
    """64 classes of 64 fields and 64 methods of 8 parameters."""
    parts = []
    parameters = ', '.join('p%d' % number for number in range(8))
    for number in range(64):
        fields = ' '.join('long f%d;' % field for field in range(64))
        methods = ' '.join('m%d(%s) { return p0 + p7; }' % (method, parameters) for method in range(64))
        parts.append('class C%d { %s %s }\n' % (number, fields, methods))
    body = ' '.join('var c%d = new C%d(); print(c%d.m63(1, 2, 3, 4, 5, 6, 7, %d));' % (k, k, k, k) for k in range(64))
    return 'clients = 1\n', ''.join(parts) + thread(1, body)


def words():
    """4,096 different literals of text."""
    return 'clients = 1\n', thread(1, ' '.join('print("w%d");' % number for number in range(4096)))


def entries():
    """1,024 entries in each section that may have so many."""
    config = 'clients = 2\n' + AUTOLOCK
    config += ''.join(entry('autolock', method='C%d.m' % k, level='read') for k in range(1023))
    config += ''.join(entry('named_lock', name='l%d' % k, method='C%d.n' % k, level='write') for k in range(1024))
    config += ''.join(entry('guard', field='C%d.f' % k, lock='l%d' % k) for k in range(1024))
    config += ''.join(entry('break', client=k % 2 + 1, after=k // 2) for k in range(1024))
    body = '  Main.c = new Counter(); var i = 0; while (i < 2000) { Main.c.add(); i = i + 1; }'
    return config, COUNTER + thread(1, body) + thread(2, body)


def arrays():
    """An array of 256 arrays of 256 elements, published at once."""
    body = '''  var a = new ref[256]; var i = 0;
  while (i < 256) { var b = new ref[256]; var j = 0; while (j < 256) { b[j] = a; j = j + 1; } a[i] = b; i = i + 1; }
  Main.a = a;'''
    return 'clients = 1\n', 'class Main { static ref a; }\n' + thread(1, body)


PROGRAMS = {it.__name__: it for it in (
    threads, waiters, requests, prints, chain, flushes, breaks, locks, recalls, block, nesting, too_deep, text, names,
    words, entries, arrays)}
