"""Hostile deliveries, one for each refusal that a replay can bring about, and what stands around them."""
PAIR = 'edge Request 0 1\nedge Reply 1 2\nhonest a\nhonest b\nkey a b ' + '1' * 64 + '\n'
BACK = ('graph {\ngraph pair;role a;role b;node n0:a;node n1:b;node n2:a;edge Request:n0->n1;edge Reply:n1->n2;\n}\n'
        'graph {\ngraph back;role b;role a;node n0:b;node n1:a;edge Go:n0->n1;\n}\nhonest a\nhonest b\nkey a b ' + '1' * 64 + '\n')
SHOP = ('graph {\ngraph shop;role c;role p;role w;var q:text by c;var price:int by w;node n0:c;node n1:p;node n2:w;node n3:p;node n4:c;node n5:p;\n'
        'node n6:c;node n7:p;edge Order:n0->n1 writes q reads q;edge Ask:n1->n2 reads q;edge Offer:n2->n3 writes price reads price;\n'
        'edge Refuse:n2->n5;edge Pass:n3->n4 reads price;edge Deny:n5->n6;edge Retry:n4->n1 writes q reads q;edge Accept:n4->n7;\n}\n'
        'honest alice\nhonest carl\n' + ''.join(f'key {pair} {digit * 64}\n' for pair, digit in (('alice bob', '1'), ('alice carl', '2'), ('bob carl', '3')))
        + 'session s1 shop 7 alice,bob,carl\n')
S1 = 'session s1 pair 1 a,b\n'
ASKED = ['start a s1', 'act a s1 Request']
ORDERED = ['start alice s1', 'act alice s1 Order q="tea"']
RIGHT = 'craft s1 from p to w join item Order 1 q="tea"#2 tag w copy f1 1 w item Ask 2 open q="tea"#2 seal key bob carl'
RECEIVED = ('deliver b f1', 'b s1 received Request time 1')
ASK = ('deliver carl f3', 'carl s1 received Ask time 2 q="tea"')


def full(count, abandon):
    """Sessions that b starts, and abandons or not."""
    sessions = ''.join(f'session t{n} back {n} b,a\n' for n in range(count))
    return BACK + sessions + S1, [step for n in range(count) for step in [f'start b t{n}'] + ([f'abandon b t{n}'] if abandon else [])] + ASKED


def order(item, opening):
    """Two frames of bob for carl: one with this first item and opening, and the right one."""
    return SHOP, ORDERED + [f'craft s1 from p to w join item Order {item} item Ask 2 open {opening} seal key bob carl', RIGHT]


JOINS_FULL, SESSIONS_FULL = full(65_536, True), full(4_096, False)
# For each refusal: what is declared, the steps before, the hostile delivery, how it is refused, and a last step with what must come of it.
FLOODS = [
    ('no-frame', PAIR + S1, ASKED, 'deliver b f9', 'b refused no-frame', RECEIVED),
    ('malformed', PAIR + S1, ASKED, 'deliver b f1 cut 135', 'b refused malformed at 104', RECEIVED),
    ('unknown-graph', PAIR + S1, ASKED, 'deliver b f1 flip 39', 'b refused unknown-graph', RECEIVED),
    ('bad-cast', PAIR + S1, ASKED, 'deliver b f1 flip 91', 'b refused bad-cast', RECEIVED),
    ('unknown-peer', PAIR + S1, ASKED + ['craft s1 from a to b join cast c,b item Request 1 seal zero'], 'deliver b f2', 'b refused unknown-peer c', RECEIVED),
    ('bad-session', PAIR + S1, ASKED, 'deliver b f1 flip 5', 'b refused bad-session', RECEIVED),
    ('joined', PAIR + S1, ASKED + ['deliver b f1'], 'deliver b f1', 'b refused joined', ('act b s1 Reply', 'b s1 sent Reply time 2 to a as f2')),
    ('cache-full', *JOINS_FULL, 'deliver b f1', 'b refused cache-full', ('abandon a s1', 'a s1 abandoned')),
    ('sessions-full', *SESSIONS_FULL, 'deliver b f1', 'b refused sessions-full', ('abandon b t0', 'b t0 abandoned')),
    ('unknown-session', PAIR + S1, ASKED + ['craft s1 from a to b item Request 1 seal zero'], 'deliver b f2', 'b refused unknown-session', RECEIVED),
    ('not-waiting', PAIR + S1, ['start a s1', 'craft s1 from b to a item Reply 2 seal zero'], 'deliver a f1', 'a refused not-waiting',
     ('act a s1 Request', 'a s1 sent Request time 1 to b as f2')),
    ('bad-frame-tag', PAIR + S1, ASKED, 'deliver b f1 flip 104', 'b refused bad-frame-tag', RECEIVED),
    ('no-such-view', *order('1 q="tea"#2', 'q="tea"#2'), 'deliver carl f2', 'carl refused no-such-view', ASK),
    ('bad-time', *order('2 q="tea"#2 tag w zero', 'q="tea"#2'), 'deliver carl f2', 'carl refused bad-time item 2 got 2 least 3', ASK),
    ('bad-evidence', *order('1 q="tea"#2 tag w zero', 'q="tea"#2'), 'deliver carl f2', 'carl refused bad-evidence item 1', ASK),
    ('bad-opening', *order('1 q="tea"#2 tag w copy f1 1 w', 'q="gin"#2'), 'deliver carl f2', 'carl refused bad-opening q', ASK),
]
