"""Types files: what is read of them, and what is refused."""

# How a table begins, its first keys, two with all keys that they need, and a name of 64 bytes.
MESSAGE = b"[[message]]\n"
SERVICE = b"service=0\n"
METHOD = b"method=0\n"
TYPE = b"type='REQUEST'\n"
TABLE = b"[[message]]\nservice=0\nmethod=0\ntype='REQUEST'\nshape='u8'\n"
OTHER = b"[[message]]\nservice=1\nmethod=0\ntype='REQUEST'\nshape='u8'\n"
LONGEST = b"0123456789abcdef0123456789abcdef0123456789abcdef0123456789abcdef"

# How the table of names begins, the keys of a table before its shape, and a table whose shape is a name.
NAMES = b"[types]\n"
HEAD = b"[[message]]\nservice=0\nmethod=0\ntype='REQUEST'\n"
USE = HEAD + b"shape='@a'\n"
# Names from a to n, each of two of the one before: 65,502 shapes are written out for them, of 65,536 that may be.
DOUBLED = b"a='struct(u8,u8)'\n" + b"".join(b"%c='struct(@%c,@%c)'\n" % (n, n - 1, n - 1) for n in b"bcdefghijklmn")


def deep(count):
    """The text of a shape that so many lie inside, itself among them."""
    return b"array<1," * (count - 1) + b"u8" + b">" * (count - 1)


# The parts of a text, and what comes of it: `empty` where it is read and has no table, `tables` where it has some, and else
# the error.
TYPES = (
    # The file.
    ((), "empty"),
    ((b"# nothing\n",), "empty"),
    ((b"message = []\n",), "empty"),
    ((TABLE,), "tables"),
    ((b"message=",), "NotToml -"),
    ((b"message=[]#\xff",), "NotToml -"),
    ((TABLE, b"shape='u8'\n"), "NotToml -"),
    ((b"message = 1\n",), "WrongKind message"),
    ((b"message = [1]\n",), "WrongKind message"),
    ((b"[message]\n",), "WrongKind message"),
    # The service.
    ((MESSAGE,), "message 1: Missing service"),
    ((MESSAGE, b"service='a'\n"), "message 1: WrongKind service"),
    ((MESSAGE, b"service=-1\n"), "message 1: OutOfRange service"),
    ((MESSAGE, b"service=0x10000\n"), "message 1: OutOfRange service"),
    ((MESSAGE, b"service=0xffff\n"), "message 1: Missing method"),
    # The method.
    ((MESSAGE, SERVICE, b"method=1.5\n"), "message 1: WrongKind method"),
    ((MESSAGE, SERVICE, b"method=65536\n"), "message 1: OutOfRange method"),
    ((MESSAGE, SERVICE, b"method=65535\n"), "message 1: Missing type"),
    # The type.
    ((MESSAGE, SERVICE, METHOD, b"type=1\n"), "message 1: WrongKind type"),
    ((MESSAGE, SERVICE, METHOD, b"type='TP_REQUEST'\n"), "message 1: OutOfRange type"),
    ((MESSAGE, SERVICE, METHOD, b"type='request'\n"), "message 1: OutOfRange type"),
    ((MESSAGE, SERVICE, METHOD, TYPE), "message 1: Missing shape"),
    # The shape.
    ((MESSAGE, SERVICE, METHOD, TYPE, b"shape=8\n"), "message 1: WrongKind shape"),
    ((MESSAGE, SERVICE, METHOD, TYPE, b"shape='u9'\n"), "message 1: BadShape shape at 1"),
    ((MESSAGE, SERVICE, METHOD, TYPE, b"shape=''\n"), "message 1: BadShape shape at 0"),
    ((MESSAGE, SERVICE, METHOD, TYPE, b"shape='fixed<0,u8>'\n"), "message 1: BadShape shape"),
    ((MESSAGE, SERVICE, METHOD, TYPE, b"shape='fixed<1,u8>'\n"), "tables"),
    # The name.
    ((TABLE, b"name=1\n"), "message 1: WrongKind name"),
    ((TABLE, b"name=''\n"), "message 1: OutOfRange name"),
    ((TABLE, b"name='a b'\n"), "message 1: OutOfRange name"),
    ((TABLE, b"name='\xc3\xa9'\n"), "message 1: OutOfRange name"),
    ((TABLE, b"name='", LONGEST, b"a'\n"), "message 1: OutOfRange name"),
    ((TABLE, b"name='", LONGEST, b"'\n"), "tables"),
    ((TABLE, b"name='!~'\n"), "tables"),
    # Two faults: of a table the key that comes first is told, and of two tables the first.
    ((MESSAGE, SERVICE, METHOD, TYPE, b"name=1\n"), "message 1: Missing shape"),
    ((MESSAGE, SERVICE, METHOD, TYPE, b"shape='u9'\nname=''\n"), "message 1: BadShape shape at 1"),
    ((MESSAGE, MESSAGE, SERVICE), "message 1: Missing service"),
    ((MESSAGE, SERVICE, MESSAGE), "message 1: Missing method"),
    ((TABLE, MESSAGE, b"service='a'\n", MESSAGE), "message 2: WrongKind service"),
    ((TABLE, OTHER, MESSAGE, SERVICE, METHOD, TYPE, b"shape='struct(u8,u12)'\n"), "message 3: BadShape shape at 13"),
    ((TABLE, MESSAGE, SERVICE, METHOD, TYPE, b"shape='array<2,u12>'\n"), "message 2: BadShape shape at 10"),
    ((TABLE, OTHER, MESSAGE, SERVICE, METHOD, TYPE, b"shape='struct(u8)x'\n"), "message 3: BadShape shape at 10"),
    ((TABLE, MESSAGE, SERVICE, METHOD, TYPE, b"shape='fixed<0,u8>'\n"), "message 2: BadShape shape"),
    # Keys that are not known: after the known ones, of the file before those of the tables, the least by bytes.
    ((TABLE, b"names='a'\n"), "message 1: UnknownKey names"),
    ((b"zoo=1\n", TABLE, b"abc=1\n"), "UnknownKey zoo"),
    ((b"zoo=1\nape=2\n",), "UnknownKey ape"),
    ((TABLE, b"zz=1\n", TABLE, b"yy=1\n"), "message 2: UnknownKey yy"),
    ((TABLE, b"zz=1\n", TABLE), "message 1: UnknownKey zz"),
    ((TABLE, TABLE, b"zz=1\n", TABLE, b"zz=1\n"), "message 2: UnknownKey zz"),
    ((TABLE, b"zz=1\n", TABLE, b"yy=1\n", TABLE, b"zz=1\nyy=1\n"), "message 2: UnknownKey yy"),
    ((b"zoo=1\n", MESSAGE, SERVICE), "message 1: Missing method"),
    # Two tables.
    ((TABLE, MESSAGE), "message 2: Missing service"),
    ((TABLE, TABLE), "message 2: Clash message"),
    ((TABLE, OTHER, OTHER, TABLE), "message 3: Clash message"),
    ((TABLE, OTHER, TABLE, OTHER), "message 3: Clash message"),
    ((TABLE, MESSAGE, SERVICE, METHOD, TYPE, b"shape='u16'\n"), "message 2: Clash message"),
    ((TABLE, MESSAGE, SERVICE, METHOD, b"type='RESPONSE'\nshape='u8'\n"), "tables"),
    ((TABLE, MESSAGE, SERVICE, b"method=1\ntype='REQUEST'\nshape='u8'\n"), "tables"),
    ((TABLE, MESSAGE, b"service=1\nmethod=0\ntype='REQUEST'\nshape='u8'\n"), "tables"),
    # Names: their table, its keys and kinds, the first by rising names.
    ((b"types = 1\n",), "WrongKind types"),
    ((b"[[types]]\na='u8'\n",), "WrongKind types"),
    ((b"types = {}\n",), "empty"),
    ((b"types = { a = 'u8' }\n",), "empty"),
    ((NAMES, b"a=1\n"), "types a: WrongKind shape"),
    ((NAMES, b"b=1\na=2\n"), "types a: WrongKind shape"),
    ((NAMES, b"'a b'='u8'\n"), "types: UnknownKey a b"),
    ((NAMES, b"1a='u8'\n"), "types: UnknownKey 1a"),
    ((NAMES, b"a-b='u8'\n"), "types: UnknownKey a-b"),
    ((NAMES, b"a" * 65, b"='u8'\n"), "types: UnknownKey " + "a" * 65),
    ((NAMES, b"a" * 64, b"='u8'\n"), "empty"),
    ((NAMES, b"_='u8'\nA9_='u8'\n"), "empty"),
    ((NAMES, b"a=1\na-b='u8'\n"), "types a: WrongKind shape"),
    ((NAMES, b"a-b='u8'\nb=1\n"), "types: UnknownKey a-b"),
    ((NAMES, b"a='u9'\nb=1\n"), "types b: WrongKind shape"),
    # Their texts: names before and after, one that is not there, and names in a circle.
    ((NAMES, b"a='u8'\n", USE), "tables"),
    ((NAMES, b"a='@b'\nb='u8'\n", USE), "tables"),
    ((NAMES, b"b='u8'\na='struct(x:@b,y:@b)'\n", USE), "tables"),
    ((NAMES, b"a='u9'\n"), "types a: BadShape shape at 1"),
    ((NAMES, b"a='struct(u8,@b,u9)'\nb='u8'\n"), "types a: BadShape shape at 15"),
    ((NAMES, b"a='@b'\n"), "types a: Unknown @b"),
    ((NAMES, b"a='@bc'\nb='u8'\n"), "types a: Unknown @bc"),
    ((NAMES, b"a='@a'\n"), "types a: Cycle @a"),
    ((NAMES, b"a='@b'\nb='@c'\nc='@b'\n"), "types c: Cycle @b"),
    ((NAMES, b"a='@b'\nb='@c'\nc='@a'\n"), "types c: Cycle @a"),
    ((NAMES, b"b='@c'\nc='@d'\nd='@d'\n"), "types d: Cycle @d"),
    ((NAMES, b"a='@'\n"), "types a: BadShape shape at 0"),
    ((NAMES, b"a='struct(@,@x)'\n"), "types a: Unknown @x"),
    # Of two faults: a name after those that it refers to, and in one text names before its shape.
    ((NAMES, b"a='struct(@b,@x)'\nb='u9'\n"), "types b: BadShape shape at 1"),
    ((NAMES, b"a='struct(@x,@b)'\nb='u9'\n"), "types a: Unknown @x"),
    ((NAMES, b"a='struct(u9,@x)'\n"), "types a: Unknown @x"),
    ((NAMES, b"b='u9'\na='@x'\n"), "types a: Unknown @x"),
    ((NAMES, b"a='@c'\nb='@x'\nc='@c'\n"), "types c: Cycle @c"),
    # Names are judged before tables, and before keys that are not known.
    ((NAMES, b"a='u9'\n", MESSAGE), "types a: BadShape shape at 1"),
    ((b"message=1\n", NAMES, b"a='u9'\n"), "types a: BadShape shape at 1"),
    ((b"zoo=1\n", NAMES, b"a='u9'\n"), "types a: BadShape shape at 1"),
    ((b"message=1\ntypes=1\n",), "WrongKind types"),
    # Names in a table.
    ((HEAD, b"shape='@speed'\n"), "message 1: Unknown @speed"),
    ((NAMES, b"a='u8'\n", HEAD, b"shape='struct(@a,@x,u9)'\n"), "message 1: Unknown @x"),
    ((NAMES, b"a='u8'\n", HEAD, b"shape='struct(@a,u9)'\n"), "message 1: BadShape shape at 12"),
    ((NAMES, b"a='fixed<0,u8>'\n"), "empty"),
    ((NAMES, b"a='fixed<0,u8>'\n", USE), "message 1: BadShape shape"),
    ((NAMES, b"a='@b'\nb='utf8'\n", HEAD, b"shape='struct(@a,n:@b)'\nname='two'\n"), "tables"),
    # How deep: 64 in a text, and 16 in a payload.
    ((NAMES, b"a='", deep(64), b"'\n"), "empty"),
    ((NAMES, b"a='", deep(65), b"'\n"), "types a: BadShape shape at 512"),
    ((NAMES, b"a='array<1,@b>'\nb='", deep(64), b"'\n"), "types a: BadShape shape at 8"),
    ((NAMES, b"a='", deep(16), b"'\n", USE), "tables"),
    ((NAMES, b"a='", deep(16), b"'\n", HEAD, b"shape='array<1,@a>'\n"), "message 1: BadShape shape"),
    # How many shapes are written out for names in all.
    ((NAMES, DOUBLED), "empty"),
    ((NAMES, DOUBLED, b"o='struct(@n,@n)'\n"), "types o: TooMany"),
    ((NAMES, DOUBLED, b"o='struct(@n,@n,u9)'\n"), "types o: TooMany"),
    ((NAMES, DOUBLED, b"o='struct(@n,@n,@x)'\n"), "types o: Unknown @x"),
    ((NAMES, DOUBLED, HEAD, b"shape='@n'\n"), "message 1: TooMany"),
    ((NAMES, DOUBLED, HEAD, b"shape='struct(", b"@a," * 10, b"@a)'\n"), "tables"),
    ((NAMES, DOUBLED, HEAD, b"shape='struct(", b"@a," * 11, b"@a)'\n"), "message 1: TooMany"),
    ((NAMES, DOUBLED, b"z='u8'\n", HEAD, b"shape='struct(", b"@a," * 11, b"@z)'\n"), "tables"),
    ((NAMES, DOUBLED, b"z='u8'\n", HEAD, b"shape='struct(", b"@a," * 11, b"@z,@z)'\n"), "message 1: TooMany"),
)


def types():
    """The bytes of each file, and what comes of it."""
    return [(b"".join(parts), wanted) for parts, wanted in TYPES]
