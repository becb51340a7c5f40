"""Makes configurations and programs for `collect_soak`, each from the seed of the generator and its own number.

They make objects and links, hold some of them in every way that a frame can, and drop the links: lists, rings, arrays,
maps and maps of maps. Methods take no second monitor but in `join` and in blocks, so most of them run to their end.
"""
import random

HEAD = '''class Node {
  ref next; ref other; long v;
  synchronized push(k) { var n = new Node(); n.v = k; n.next = this.next; this.next = n; }
  synchronized pushed(n) { n.link(this.next); this.next = n; return n; }
  link(n) { synchronized (this) { this.next = n; } return this; }
  synchronized cut() { var n = this.next; this.next = null; return n; }
  synchronized pop() { var n = this.next; if (n != null) { this.next = n.after(); } return n; }
  synchronized after() { return this.next; }
  synchronized beside(n) { var o = this.other; this.other = n; return o; }
  synchronized side() { return this.other; }
  synchronized get() { return this.v; }
  synchronized add(k) { this.v = this.v + k; return this.v; }
  synchronized nap(k) { wait(this, k); this.v = this.v + 1; return this; }
  synchronized ping() { notifyAll(this); }
  ring(k) { var a = new Node(); var b = new Node(); a.next = b; b.next = a; b.v = k; this.beside(a); return b; }
  walk(k) { var n = this.after(); if (n == null || k <= 0) { return this.get(); } return n.walk(k - 1) + this.get(); }
  last(k) { var n = this.after(); if (n == null || k <= 0) { return this; } return n.last(k - 1); }
  late(a, b) { a.cut(); b.add(1); this.add(1); return this.last(2).get(); }
  held(k) { synchronized (this) { var i = 0; while (i < k) { this.v = this.v + 1; i = i + 1; } } return this.cut(); }
  join(o) { synchronized (this) { this.other = o; this.next = o.after(); } return o; }
  fails(k) {
    var mine = new Node(); mine.next = this;
    if (k > 0) { return mine.deeper(this.after(), k - 1); }
    return 1 / (k - k);
  }
  deeper(n, k) { synchronized (this) { return n.fails(k); } }
}
'''

RANKED = ['a', 'b', 'c']
CONFIGS = [
    '[[autolock]]\nmethod = "*.*"\nlevel = "write"\n',
    '[[autolock]]\nmethod = "*.*"\nlevel = "synchronous-write"\n[[autolock]]\nmethod = "Node.get"\nlevel = "read"\n',
    '[[autolock]]\nmethod = "*.*"\nlevel = "write"\n[[autolock]]\nmethod = "Node.after"\nlevel = "read"\n'
    '[[autolock]]\nmethod = "Node.get"\nlevel = "read"\n[[autolock]]\nmethod = "Node.side"\nlevel = "read"\n',
]


class Maker:
    """One program with its configuration."""

    def __init__(self, seed, number):
        self.random = random.Random('collect %d/%d' % (seed, number))
        self.clients = self.pick([1, 1, 2, 2, 2, 3, 4])
        self.threads = [1] + [self.random.randint(1, self.clients) for _ in range(self.random.randint(0, 3))]
        self.roots = RANKED[:self.random.randint(1, 3)]
        self.maps, self.arrays = self.chance(0.5), self.chance(0.4)
        self.failing = self.chance(0.25)
        self.fresh = 0

    def chance(self, share):
        return self.random.random() < share

    def pick(self, things):
        return self.random.choice(things)

    # the configuration

    def config(self):
        out = ['clients = %d\n' % self.clients] if self.clients > 1 else []
        if self.chance(0.6):
            out.append('resident = %d\n' % self.pick([1, 1, 1, 2, 2, 3, 5, 8]))
        out.append(self.pick(CONFIGS))
        if self.chance(0.25):
            lost = self.random.sample(range(1, self.clients + 1), self.pick([1, 1, min(2, self.clients)]))
            out += ['[[lose]]\nclient = %d\nafter = %d\n' % (c, self.after()) for c in lost]
        if self.chance(0.25):
            pairs = {(self.random.randint(1, self.clients), self.after()) for _ in range(self.random.randint(1, 4))}
            out += ['[[break]]\nclient = %d\nafter = %d\n' % pair for pair in sorted(pairs)]
        return ''.join(out)

    def after(self):
        return self.pick([0, self.random.randint(1, 20), self.random.randint(1, 60), self.random.randint(20, 200)])

    # the program

    def program(self):
        roots = self.roots + ['m'] * self.maps + ['r'] * self.arrays
        out = [HEAD, 'class Main { %s }\n' % ' '.join('static ref %s;' % root for root in roots)]
        out += ['thread %d {\n%s}\n' % (client, self.thread(roots)) for client in sorted(self.threads)]
        return ''.join(out)

    def thread(self, roots):
        kinds = {'m': 'new DsoMap()', 'r': 'new ref[4]'}
        out = ['var %s = %s; Main.%s = %s; %s = Main.%s;' % (r, kinds.get(r, 'new Node()'), r, r, r, r) for r in roots]
        out.append('var h = null; var g = null; var x = 0;')
        for _ in range(self.random.randint(2, 7)):
            out.append(self.loop() if self.chance(0.35) else self.act())
        if self.failing and self.chance(0.6):
            out.insert(self.random.randint(len(roots) + 1, len(out)), self.failure())
        return '  ' + '\n  '.join(out) + '\n'

    def loop(self):
        self.fresh += 1
        name = 'i%d' % self.fresh
        body, times = ' '.join(self.act() for _ in range(self.random.randint(1, 3))), self.random.randint(2, 6)
        return 'var %s = 0; while (%s < %d) { %s %s = %s + 1; }' % (name, name, times, body, name, name)

    def root(self):
        return self.pick(self.roots)

    def few(self):
        return self.random.randint(1, 5)

    def act(self):
        choices = [self.grow] * 3 + [self.drop] * 3 + [self.hold] * 2 + [self.use] * 2 + [self.call] * 2 + [self.block]
        choices += [self.on_map] * 4 * self.maps + [self.on_array] * 3 * self.arrays
        return self.pick(choices)()

    def grow(self):
        return self.pick(['%s.push(%d);' % (self.root(), self.few()), '%s.pushed(new Node());' % self.root(),
                          'h = %s.pushed(new Node());' % self.root(), '%s.ring(%d);' % (self.root(), self.few()),
                          'h = %s.ring(%d);' % (self.root(), self.few()), '%s.beside(new Node());' % self.root(),
                          'g = new Node(); g.next = new Node(); %s.beside(g);' % self.root()])

    def drop(self):
        return self.pick(['%s.cut();' % self.root(), '%s.pop();' % self.root(), '%s.beside(null);' % self.root(),
                          'h = %s.cut();' % self.root(), 'h = null;', 'g = null;', 'h = null; g = null;',
                          '%s.link(null);' % self.root()])

    def hold(self):
        return self.pick(['h = %s.after();' % self.root(), 'g = %s.side();' % self.root(),
                          'h = %s.last(3);' % self.root(), 'h = %s.pop();' % self.root(), 'g = h;',
                          'h = %s.held(%d);' % (self.root(), self.few()),
                          'h = %s;' % self.root()])

    def use(self):
        name = self.pick(['h', 'g'])
        what = self.pick(['x = %s.get();', 'print(%s.get());', '%s.push(3);', '%s.add(2);', 'x = %s.walk(3);',
                          '%s.nap(2);', '%s.cut();', '%s.beside(new Node());', '%s.ping();',
                          'synchronized (%s) { x = x + 1; }']) % name
        return 'if (%s != null) { %s }' % (name, what)

    def call(self):
        a, b = self.root(), self.root()
        return self.pick(['x = %s.walk(%d);' % (a, self.few()), '%s.late(%s, new Node());' % (a, b),
                          'x = %s.late(%s, %s.last(2)) + %s.get();' % (a, b, a, b),
                          'print(%s.get() + %s.walk(2));' % (a, b), '%s.nap(%d);' % (a, self.few()),
                          '%s.last(2).late(%s, %s);' % (a, a, b), '%s.join(%s);' % (a, b), '%s.ping();' % a,
                          '%s.join(new Node());' % a])

    def block(self):
        root = self.root()
        inner = [self.pick(['%s.next = new Node();' % root, '%s.next = null;' % root, '%s.v = %s.v + 1;' % (root, root),
                            '%s.other = %s.next;' % (root, root), 'h = %s.next;' % root, 'g = %s.other;' % root,
                            'wait(%s, %d);' % (root, self.few()), 'x = x + 1;', '%s.next = %s;' % (root, root)])
                 for _ in range(self.few())]
        return 'synchronized (%s) { %s }' % (root, ' '.join(inner))

    def on_map(self):
        key = self.random.randint(-2, 3)
        return self.pick(['m.put(%d, new Node());' % key, 'm.put(%d, %s);' % (key, self.root()), 'm.remove(%d);' % key,
                          'm.remove(%d);' % key, 'h = m.get(%d);' % key, 'print(m.size());', 'x = m.size();',
                          'print(m.has(%d));' % key, 'm.put(%d, new DsoMap());' % key, 'm.put(%d, m);' % key,
                          'if (h != null) { m.put(%d, h); }' % key,
                          'print(m.get(%d) == null || m.has(%d));' % (key, key),
                          'm.put(%d, %s.pushed(new Node()));' % (key, self.root()),
                          'synchronized (m) { m.remove(%d); m.put(%d, new Node()); }' % (key, key)])

    def on_array(self):
        at = self.random.randint(0, 3)
        return 'synchronized (r) { %s }' % self.pick([
            'r[%d] = new Node();' % at, 'r[%d] = null;' % at, 'r[%d] = %s;' % (at, self.root()), 'r[%d] = r;' % at,
            'h = r[%d];' % at, 'r[%d] = h;' % at, 'r[%d] = new ref[2];' % at, 'r[%d] = r[%d];' % (at, (at + 1) % 4)])

    def failure(self):
        root = self.root()
        return self.pick(['%s.fails(%d);' % (root, self.few()), 'x = %s.last(2).get() + h.length;' % root,
                          'h = null; %s.late(%s, h);' % (root, root), '%s.next = new Node();' % root,
                          'synchronized (%s) { %s.beside(new Node()); x = 1 / 0; }' % (root, root), 'return;',
                          'print(%s.pop().get());' % root])


def made(seed, number):
    """(configuration, program, options) of this number, as bytes, bytes and words."""
    maker = Maker(seed, number)
    program, config = maker.program(), maker.config()
    options = ['--steps', str(maker.pick([20000] * 12 + [maker.random.randint(1, 400)]))]
    if maker.chance(0.6):
        chosen = maker.pick([0, (1 << 64) - 1, maker.random.getrandbits(64), maker.random.randint(1, 99)])
        options += ['--seed', str(chosen)]
    return config.encode(), program.encode(), options
