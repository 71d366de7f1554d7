"""Tables of inputs with the input error that each is refused for, if it is refused. checks/golden tries the program with them.

A row of a scenario's table is a text and the line of its error without the word `fault`, or `right`. The text is put into
a layer. If the text is right, the layer has the next error after it, so that the row shows how far the reader came.
"""

from collections.abc import Iterator

Row = tuple[str, str]
Layer = tuple[str, str]

SOUND_IMAGE = '{"class":"sound","data":[],"entries":{"init":0,"open":0,"play":0,"close":0,"get":0,"set":0},"text":[]}'
SPEAKER = '{"name":"s","class":"sound","driver":{"image":' + SOUND_IMAGE + "}}"
NET_IMAGE = '{"class":"net","data":[],"entries":{"init":0,"send":0,"poll":0,"get":0,"set":0},"text":[]}'
DISK = '"name":"d","class":"block","blocks":4'

# The text is the whole input.
WHOLE: Layer = ("", "")

# A schedule; a right one is followed by no part at all.
IN_SCHEDULE: Layer = ('{"version":1,"schedule":', ',"parts":[],"threads":[]}')

# The picks of a schedule; right ones are followed by no part at all.
IN_PICKS: Layer = ('{"version":1,"schedule":{"kind":"listed","picks":[', ']},"parts":[],"threads":[]}')

# The first parts; right ones are followed by threads that are no list.
IN_PARTS: Layer = ('{"version":1,"parts":[', '],"threads":7}')
IN_PARTS_2: Layer = ('{"version":2,"parts":[', '],"threads":7}')

# The part after a right one named `s`.
IN_SECOND_PART: Layer = ('{"version":1,"parts":[' + SPEAKER + ",", '],"threads":7}')

# The bad blocks of a disk of 4 blocks in version 2; right ones are followed by no driver.
IN_BAD: Layer = ('{"version":2,"parts":[{' + DISK + ',"bad":', '}],"threads":7}')

# The driver of a disk, its image, and the initial words of that image, which are followed by no entries.
IN_DRIVER: Layer = ('{"version":1,"parts":[{' + DISK + ',"driver":', '}],"threads":7}')
IN_IMAGE: Layer = ('{"version":1,"parts":[{' + DISK + ',"driver":{"image":', '}}],"threads":7}')
IN_DATA: Layer = ('{"version":1,"parts":[{' + DISK + ',"driver":{"image":{"class":"block","data":[', ']}}}],"threads":7}')

# The faults of a speaker and the arrivals of a link; right ones are followed by threads that are no list.
IN_FAULTS: Layer = ('{"version":1,"parts":[' + SPEAKER[:-1] + ',"faults":', '}],"threads":7}')
IN_ARRIVALS: Layer = (
    '{"version":1,"parts":[{"name":"n","class":"net","driver":{"image":' + NET_IMAGE + '},"arrivals":',
    '}],"threads":7}',
)

# The threads after one right part named `s`, the operations of one thread, and the words of one write.
IN_THREADS: Layer = ('{"version":1,"parts":[' + SPEAKER + '],"threads":', "}")
IN_OPS: Layer = (IN_THREADS[0] + '[{"name":"t","ops":[', "]}]}")
IN_WORDS: Layer = (IN_OPS[0] + '{"part":0,"op":"write","first":0,"data":[', "]}]}]}")

# Whole texts: what is no JSON, the keys of a scenario, and the order of its checks.
ROOT: list[Row] = [
    ('', "1 not_json /"),
    ('   ', "1 not_json /"),
    ('{', "1 not_json /"),
    ('nul', "1 not_json /"),
    ('{"version":1,}', "1 not_json /"),
    ('[1,]', "1 not_json /"),
    ('{"version":1} 1', "1 not_json /"),
    ('{"version":1}}', "1 not_json /"),
    ('{"version":01}', "1 not_json /"),
    ('{"version":1e999}', "1 not_json /"),
    (r'{"x":"\ud800"}', "1 not_json /"),
    ("{'version':1}", "1 not_json /"),
    ('null', "4 wrong_kind /"),
    ('[]', "4 wrong_kind /"),
    ('7', "4 wrong_kind /"),
    ('"x"', "4 wrong_kind /"),
    ('{}', "3 missing_key /version"),
    ('{"versions":1}', "2 unknown_key /"),
    ('{"Version":1}', "2 unknown_key /"),
    ('{"":1}', "2 unknown_key /"),
    ('{"version":3,"extra":1}', "2 unknown_key /"),
    ('{"version":0}', "5 number_range /version"),
    ('{"version":3}', "5 number_range /version"),
    ('{"version":"1"}', "4 wrong_kind /version"),
    ('{"version":null}', "4 wrong_kind /version"),
    ('{"version":1.0}', "4 wrong_kind /version"),
    ('{"version":-0}', "4 wrong_kind /version"),
    ('{"version":-1}', "4 wrong_kind /version"),
    ('{"version":1e0}', "4 wrong_kind /version"),
    ('{"version":18446744073709551616}', "4 wrong_kind /version"),
    ('{"version":18446744073709551615}', "5 number_range /version"),
    ('{"version":1}', "3 missing_key /parts"),
    ('{"version":2}', "3 missing_key /parts"),
    ('{"version":1,"version":3}', "5 number_range /version"),
    ('{"version":3,"version":1}', "3 missing_key /parts"),
    (r'{"vers\u0069on":3}', "5 number_range /version"),
    ('{"version":1,"schedule":null}', "4 wrong_kind /schedule"),
    ('{"version":1,"threads":7,"parts":7,"schedule":7}', "4 wrong_kind /schedule"),
    ('{"version":1,"parts":[],"threads":7}', "5 number_range /parts"),
    ('{"version":1,"parts":{}}', "4 wrong_kind /parts"),
    ('{"version":1,"parts":[7]}', "4 wrong_kind /parts/0"),
    ('{"version":1,"parts":[7],"parts":[]}', "5 number_range /parts"),
]

# Schedules: the kind comes first, then unknown keys, then the keys of the kind.
SCHEDULES: list[Row] = [
    ('7', "4 wrong_kind /schedule"),
    ('[]', "4 wrong_kind /schedule"),
    ('{}', "3 missing_key /schedule/kind"),
    ('{"start":1}', "3 missing_key /schedule/kind"),
    ('{"kind":"Drawn","x":1}', "4 wrong_kind /schedule/kind"),
    ('{"kind":7}', "4 wrong_kind /schedule/kind"),
    ('{"kind":"round_robin"}', "5 number_range /parts"),
    ('{"kind":"round_robin","start":1}', "2 unknown_key /schedule"),
    ('{"kind":"drawn"}', "3 missing_key /schedule/start"),
    ('{"kind":"drawn","picks":[]}', "2 unknown_key /schedule"),
    ('{"kind":"drawn","start":0}', "5 number_range /parts"),
    ('{"kind":"drawn","start":18446744073709551615}', "5 number_range /parts"),
    ('{"kind":"drawn","start":18446744073709551616}', "4 wrong_kind /schedule/start"),
    ('{"kind":"drawn","start":1.5}', "4 wrong_kind /schedule/start"),
    ('{"kind":"drawn","start":"1"}', "4 wrong_kind /schedule/start"),
    ('{"kind":"listed"}', "3 missing_key /schedule/picks"),
    ('{"kind":"listed","start":1,"picks":[]}', "2 unknown_key /schedule"),
    ('{"kind":"listed","picks":{}}', "4 wrong_kind /schedule/picks"),
    ('{"kind":"listed","picks":[]}', "5 number_range /parts"),
    ('{"kind":"listed","picks":[0,65535]}', "5 number_range /parts"),
    ('{"kind":"listed","picks":[0,65536]}', "5 number_range /schedule/picks/1"),
    ('{"kind":"listed","picks":[0,1,null]}', "4 wrong_kind /schedule/picks/2"),
    ('{"kind":"drawn","kind":"round_robin"}', "5 number_range /parts"),
]

# Parts of version 1: the class comes first, then unknown keys, then the keys in the order of the table.
PARTS: list[Row] = [
    ('7', "4 wrong_kind /parts/0"),
    ('{}', "3 missing_key /parts/0/class"),
    ('{"x":1}', "3 missing_key /parts/0/class"),
    ('{"class":7,"x":1}', "4 wrong_kind /parts/0/class"),
    ('{"class":"disk","x":1}', "9 bad_class /parts/0/class"),
    ('{"class":"block","x":1}', "2 unknown_key /parts/0"),
    ('{"class":"block","arrivals":[]}', "2 unknown_key /parts/0"),
    ('{"class":"block","bad":[]}', "2 unknown_key /parts/0"),
    ('{"class":"net","blocks":1}', "2 unknown_key /parts/0"),
    ('{"class":"sound","blocks":1}', "2 unknown_key /parts/0"),
    ('{"class":"sound","arrivals":[]}', "2 unknown_key /parts/0"),
    ('{"class":"block"}', "3 missing_key /parts/0/name"),
    ('{"class":"block","name":7}', "4 wrong_kind /parts/0/name"),
    ('{"class":"block","name":""}', "4 wrong_kind /parts/0/name"),
    ('{"class":"block","name":"D"}', "4 wrong_kind /parts/0/name"),
    ('{"class":"block","name":"a-b"}', "4 wrong_kind /parts/0/name"),
    ('{"class":"block","name":"abcdefghijklmnopq"}', "4 wrong_kind /parts/0/name"),
    ('{"class":"net","name":"abcdefghijklmnop"}', "3 missing_key /parts/0/driver"),
    ('{"class":"net","name":"_0"}', "3 missing_key /parts/0/driver"),
    ('{"class":"block","name":"d"}', "3 missing_key /parts/0/blocks"),
    ('{"class":"block","name":"d","blocks":0}', "5 number_range /parts/0/blocks"),
    ('{"class":"block","name":"d","blocks":257}', "5 number_range /parts/0/blocks"),
    ('{"class":"block","name":"d","blocks":256}', "3 missing_key /parts/0/driver"),
    ('{"class":"block","name":"d","blocks":1,"limit":17}', "5 number_range /parts/0/limit"),
    ('{"class":"block","name":"d","blocks":1,"limit":16}', "3 missing_key /parts/0/driver"),
    ('{"class":"block","name":"d","blocks":1,"limit":null}', "4 wrong_kind /parts/0/limit"),
    ('{"limit":17,"blocks":0,"name":"d","class":"block"}', "5 number_range /parts/0/blocks"),
    ('{"class":"block","name":"d","blocks":1,"limit":17,"driver":7}', "5 number_range /parts/0/limit"),
]

# Parts of version 2, in which disks may have bad blocks.
PARTS_OF_VERSION_2: list[Row] = [
    ('{"class":"net","bad":[]}', "2 unknown_key /parts/0"),
    ('{"class":"sound","bad":[]}', "2 unknown_key /parts/0"),
    ('{"class":"block","bad":[]}', "3 missing_key /parts/0/name"),
    ('{"class":"block","name":"d","blocks":0,"bad":7}', "5 number_range /parts/0/blocks"),
    ('{"class":"block","name":"d","blocks":1,"bad":7,"limit":17}', "4 wrong_kind /parts/0/bad"),
]

# The part after one that is named `s`.
SECOND_PARTS: list[Row] = [
    ('7', "4 wrong_kind /parts/1"),
    ('{"class":"net","name":"s"}', "10 double_name /parts/1/name"),
    ('{"class":"net","name":"S"}', "4 wrong_kind /parts/1/name"),
    ('{"class":"net","name":"t"}', "3 missing_key /parts/1/driver"),
]

# Bad blocks of a disk of 4 blocks.
BAD_BLOCKS: list[Row] = [
    ('7', "4 wrong_kind /parts/0/bad"),
    ('null', "4 wrong_kind /parts/0/bad"),
    ('[]', "3 missing_key /parts/0/driver"),
    ('[7]', "4 wrong_kind /parts/0/bad/0"),
    ('[{}]', "3 missing_key /parts/0/bad/0/block"),
    ('[{"x":1}]', "2 unknown_key /parts/0/bad/0"),
    ('[{"block":4,"after":0}]', "5 number_range /parts/0/bad/0/block"),
    ('[{"block":3,"after":0}]', "3 missing_key /parts/0/driver"),
    ('[{"block":3}]', "3 missing_key /parts/0/bad/0/after"),
    ('[{"block":0,"after":4294967295}]', "3 missing_key /parts/0/driver"),
    ('[{"block":0,"after":4294967296}]', "5 number_range /parts/0/bad/0/after"),
    ('[{"block":0,"after":0},{"block":9,"after":"x"}]', "5 number_range /parts/0/bad/1/block"),
    ('[{"block":0,"after":0},{"block":0,"after":0}]', "3 missing_key /parts/0/driver"),
]

# Drivers: exactly one of two keys.
DRIVERS: list[Row] = [
    ('7', "4 wrong_kind /parts/0/driver"),
    ('{}', "3 missing_key /parts/0/driver/image"),
    ('{"x":1}', "2 unknown_key /parts/0/driver"),
    ('{"image":7,"asm":7}', "2 unknown_key /parts/0/driver"),
    ('{"asm":7}', "4 wrong_kind /parts/0/driver/asm"),
    ('{"asm":null}', "4 wrong_kind /parts/0/driver/asm"),
    ('{"image":7}', "4 wrong_kind /parts/0/driver/image"),
    ('{"image":null}', "4 wrong_kind /parts/0/driver/image"),
]

# The driver of a part of class block, and what it is refused for.
ASM: list[Row] = [
    ('{"asm":""}', "8 bad_asm 9 line 1 /parts/0/driver/asm"),
    (r'{"asm":".class block\nx: FOO\n"}', "8 bad_asm 2 line 2 /parts/0/driver/asm"),
    ('{"asm":".class disk"}', "8 bad_asm 2 line 1 /parts/0/driver/asm"),
    (r'{"asm":".class sound\n.entry init 0\n.entry open 0\n.entry play 0\n.entry close 0\n.entry get 0\n.entry set 0\n"}', "7 bad_image /parts/0/driver"),
]

# Images: unknown keys come first, and another class than the part's is an error of the driver.
IMAGES: list[Row] = [
    ('[]', "4 wrong_kind /parts/0/driver/image"),
    ('{}', "3 missing_key /parts/0/driver/image/class"),
    ('{"class":"disk","x":1}', "2 unknown_key /parts/0/driver/image"),
    ('{"class":"disk"}', "9 bad_class /parts/0/driver/image/class"),
    ('{"class":7}', "4 wrong_kind /parts/0/driver/image/class"),
    ('{"class":"block"}', "3 missing_key /parts/0/driver/image/data"),
    ('{"class":"block","data":7}', "4 wrong_kind /parts/0/driver/image/data"),
    ('{"class":"block","data":["0000000"]}', "7 bad_image /parts/0/driver/image/data/0"),
    ('{"class":"block","data":["000000000"]}', "7 bad_image /parts/0/driver/image/data/0"),
    ('{"class":"block","data":["0000000g"]}', "7 bad_image /parts/0/driver/image/data/0"),
    ('{"class":"block","data":["+0000000"]}', "7 bad_image /parts/0/driver/image/data/0"),
    ('{"class":"block","data":[7]}', "4 wrong_kind /parts/0/driver/image/data/0"),
    ('{"class":"block","data":["00000000","0x000000"]}', "7 bad_image /parts/0/driver/image/data/1"),
    ('{"class":"block","data":["fFaA09Ee"]}', "3 missing_key /parts/0/driver/image/entries"),
    ('{"class":"block","data":[],"entries":7}', "4 wrong_kind /parts/0/driver/image/entries"),
    ('{"class":"block","data":[],"entries":{}}', "3 missing_key /parts/0/driver/image/entries/init"),
    ('{"class":"block","data":[],"entries":{"init":0,"open":0}}', "2 unknown_key /parts/0/driver/image/entries"),
    ('{"class":"block","data":[],"entries":{"init":0,"read":0,"write":0,"get":0}}', "3 missing_key /parts/0/driver/image/entries/set"),
    ('{"class":"block","data":[],"entries":{"init":2048}}', "5 number_range /parts/0/driver/image/entries/init"),
    ('{"class":"block","data":[],"entries":{"init":2047}}', "3 missing_key /parts/0/driver/image/entries/read"),
    ('{"class":"block","data":[],"entries":{"set":9999,"read":9999}}', "3 missing_key /parts/0/driver/image/entries/init"),
    ('{"class":"block","data":[],"entries":{"init":0,"read":0,"write":0,"get":0,"set":0}}', "3 missing_key /parts/0/driver/image/text"),
    ('{"class":"block","data":[],"entries":{"init":0,"read":0,"write":0,"get":0,"set":0},"text":["zz"]}', "7 bad_image /parts/0/driver/image/text/0"),
    ('{"class":"block","text":["zz"],"data":["zz"],"entries":{"init":0,"read":0,"write":0,"get":0,"set":0}}', "7 bad_image /parts/0/driver/image/data/0"),
    ('{"class":"block","data":[],"entries":{"init":0,"read":0,"write":0,"get":0,"set":0},"text":["18000000"]}', "4 wrong_kind /threads"),
    ('{"class":"net","data":[],"entries":{"init":0,"send":0,"poll":0,"get":0,"set":0},"text":[]}', "7 bad_image /parts/0/driver"),
    ('{"class":"net","data":[],"entries":{"init":0,"read":0,"write":0,"get":0,"set":0},"text":[]}', "2 unknown_key /parts/0/driver/image/entries"),
]

# Faults: the kind comes first, then unknown keys, then the keys in the order of the table.
FAULTS: list[Row] = [
    ('7', "4 wrong_kind /parts/0/faults"),
    ('null', "4 wrong_kind /parts/0/faults"),
    ('[]', "4 wrong_kind /threads"),
    ('[7]', "4 wrong_kind /parts/0/faults/0"),
    ('[{}]', "3 missing_key /parts/0/faults/0/kind"),
    ('[{"kind":"x","y":1}]', "4 wrong_kind /parts/0/faults/0/kind"),
    ('[{"kind":7}]', "4 wrong_kind /parts/0/faults/0/kind"),
    ('[{"kind":"trap","address":1}]', "2 unknown_key /parts/0/faults/0"),
    ('[{"kind":"hang","value":1}]', "2 unknown_key /parts/0/faults/0"),
    ('[{"kind":"trap"}]', "3 missing_key /parts/0/faults/0/burst"),
    ('[{"kind":"trap","burst":0}]', "5 number_range /parts/0/faults/0/burst"),
    ('[{"kind":"trap","burst":4294967296}]', "5 number_range /parts/0/faults/0/burst"),
    ('[{"kind":"trap","burst":4294967295}]', "3 missing_key /parts/0/faults/0/after"),
    ('[{"kind":"trap","burst":1,"after":4096}]', "5 number_range /parts/0/faults/0/after"),
    ('[{"kind":"trap","burst":1,"after":4095}]', "4 wrong_kind /threads"),
    ('[{"kind":"hang","burst":1,"after":0}]', "4 wrong_kind /threads"),
    ('[{"kind":"poke","burst":1,"after":0}]', "3 missing_key /parts/0/faults/0/address"),
    ('[{"kind":"poke","register":1}]', "2 unknown_key /parts/0/faults/0"),
    ('[{"kind":"poke","burst":1,"after":0,"address":4294967296}]', "5 number_range /parts/0/faults/0/address"),
    ('[{"kind":"poke","burst":1,"after":0,"address":4294967295}]', "3 missing_key /parts/0/faults/0/value"),
    ('[{"kind":"code","burst":1,"after":0,"address":0,"value":4294967295}]', "4 wrong_kind /threads"),
    ('[{"kind":"code","burst":1,"after":0,"address":0,"value":4294967296}]', "5 number_range /parts/0/faults/0/value"),
    ('[{"kind":"reg","address":1}]', "2 unknown_key /parts/0/faults/0"),
    ('[{"kind":"reg","burst":1,"after":0,"register":16,"value":0}]', "5 number_range /parts/0/faults/0/register"),
    ('[{"kind":"reg","burst":1,"after":0,"register":15,"value":4294967295}]', "4 wrong_kind /threads"),
    ('[{"kind":"reg","value":-1,"register":99,"after":9999,"burst":0}]', "5 number_range /parts/0/faults/0/burst"),
    ('[{"kind":"trap","burst":1,"after":0},{"kind":"trap","burst":0,"after":0}]', "5 number_range /parts/0/faults/1/burst"),
]

# Arrivals: a frame without words is out of range at the frame.
ARRIVALS: list[Row] = [
    ('7', "4 wrong_kind /parts/0/arrivals"),
    ('null', "4 wrong_kind /parts/0/arrivals"),
    ('[]', "4 wrong_kind /threads"),
    ('[7]', "4 wrong_kind /parts/0/arrivals/0"),
    ('[[]]', "5 number_range /parts/0/arrivals/0"),
    ('[[1],[4294967296]]', "5 number_range /parts/0/arrivals/1/0"),
    ('[[1,-1]]', "4 wrong_kind /parts/0/arrivals/0/1"),
    ('[[4294967295]]', "4 wrong_kind /threads"),
]

# Threads: a thread's name is compared with those of threads alone.
THREADS: list[Row] = [
    ('7', "4 wrong_kind /threads"),
    ('null', "4 wrong_kind /threads"),
    ('[]', "right"),
    ('[7]', "4 wrong_kind /threads/0"),
    ('[{}]', "3 missing_key /threads/0/name"),
    ('[{"x":1}]', "2 unknown_key /threads/0"),
    ('[{"name":"T"}]', "4 wrong_kind /threads/0/name"),
    ('[{"name":"s"}]', "3 missing_key /threads/0/ops"),
    ('[{"name":"s","ops":[]}]', "right"),
    ('[{"name":"t","ops":7}]', "4 wrong_kind /threads/0/ops"),
    ('[{"name":"t","ops":[]},{"name":"t","ops":[]}]', "10 double_name /threads/1/name"),
    ('[{"name":"t","ops":[]},{"name":"t","x":1}]', "2 unknown_key /threads/1"),
    ('[{"name":"t","ops":[]},{"name":"u","ops":[]}]', "right"),
]

# Operations, on a part of class sound, which they are not checked against.
OPS: list[Row] = [
    ('7', "4 wrong_kind /threads/0/ops/0"),
    ('{}', "3 missing_key /threads/0/ops/0/op"),
    ('{"part":9}', "3 missing_key /threads/0/ops/0/op"),
    ('{"op":"x","y":1}', "4 wrong_kind /threads/0/ops/0/op"),
    ('{"op":7}', "4 wrong_kind /threads/0/ops/0/op"),
    ('{"op":"Read"}', "4 wrong_kind /threads/0/ops/0/op"),
    ('{"op":"recv","first":1}', "2 unknown_key /threads/0/ops/0"),
    ('{"op":"recv"}', "3 missing_key /threads/0/ops/0/part"),
    ('{"part":1,"op":"recv"}', "5 number_range /threads/0/ops/0/part"),
    ('{"part":0,"op":"recv"}', "right"),
    ('{"part":-0,"op":"open"}', "4 wrong_kind /threads/0/ops/0/part"),
    ('{"part":0,"op":"read"}', "3 missing_key /threads/0/ops/0/first"),
    ('{"part":0,"op":"read","first":0}', "3 missing_key /threads/0/ops/0/count"),
    ('{"part":0,"op":"read","first":4294967296}', "5 number_range /threads/0/ops/0/first"),
    ('{"part":0,"op":"read","first":0,"count":0}', "right"),
    ('{"part":0,"op":"read","first":0,"count":0,"data":[]}', "2 unknown_key /threads/0/ops/0"),
    ('{"part":0,"op":"write","first":0}', "3 missing_key /threads/0/ops/0/data"),
    ('{"part":0,"op":"write","first":0,"data":7}', "4 wrong_kind /threads/0/ops/0/data"),
    ('{"part":0,"op":"write","first":0,"data":[4294967296]}', "5 number_range /threads/0/ops/0/data/0"),
    ('{"part":0,"op":"write","first":0,"data":[]}', "right"),
    ('{"part":0,"op":"send"}', "3 missing_key /threads/0/ops/0/frame"),
    ('{"part":0,"op":"send","frame":[]}', "right"),
    ('{"part":0,"op":"play"}', "3 missing_key /threads/0/ops/0/samples"),
    ('{"part":0,"op":"play","samples":[1,null]}', "4 wrong_kind /threads/0/ops/0/samples/1"),
    ('{"part":0,"op":"open","key":1}', "2 unknown_key /threads/0/ops/0"),
    ('{"part":0,"op":"close"}', "right"),
    ('{"part":0,"op":"get"}', "3 missing_key /threads/0/ops/0/key"),
    ('{"part":0,"op":"get","key":4294967295}', "right"),
    ('{"part":0,"op":"set","key":0}', "3 missing_key /threads/0/ops/0/value"),
    ('{"part":0,"op":"set","key":0,"value":4294967295}', "right"),
    ('{"part":9,"op":"set","key":-1}', "5 number_range /threads/0/ops/0/part"),
    ('{"part":0,"op":"open"},{"part":0,"op":"opens"}', "4 wrong_kind /threads/0/ops/1/op"),
]

TABLES: list[tuple[Layer, list[Row]]] = [
    (WHOLE, ROOT),
    (IN_SCHEDULE, SCHEDULES),
    (IN_PARTS, PARTS),
    (IN_PARTS_2, PARTS_OF_VERSION_2),
    (IN_SECOND_PART, SECOND_PARTS),
    (IN_BAD, BAD_BLOCKS),
    (IN_DRIVER, DRIVERS),
    (IN_DRIVER, ASM),
    (IN_IMAGE, IMAGES),
    (IN_FAULTS, FAULTS),
    (IN_ARRIVALS, ARRIVALS),
    (IN_THREADS, THREADS),
    (IN_OPS, OPS),
]

TRAP = '{"burst":1,"after":0,"kind":"trap"}'
BAD_BLOCK = '{"block":0,"after":0}'
RECV = '{"part":0,"op":"recv"}'


def times(count: int, item: str) -> str:
    """The same item `count` times, with commas between."""
    return ",".join([item] * count)


def numbered(count: int, before: str, after: str) -> str:
    """Items that differ by a number, with commas between."""
    return ",".join(f"{before}{number}{after}" for number in range(count))


def parts(count: int) -> str:
    """Links of different names."""
    return numbered(count, '{"name":"p', '","class":"net","driver":{"image":' + NET_IMAGE + "}}")


def threads(count: int) -> str:
    """A list of threads of different names."""
    return "[" + numbered(count, '{"name":"t', '","ops":[]}') + "]"


# Lists of the most items that there may be, and of one more.
LONG_LISTS: list[tuple[Layer, str, str]] = [
    (IN_PICKS, times(65_536, "65535"), "5 number_range /parts"),
    (IN_PICKS, times(65_537, "65535"), "6 too_many /schedule/picks"),
    (IN_FAULTS, "[" + times(64, TRAP) + "]", "4 wrong_kind /threads"),
    (IN_FAULTS, "[" + times(65, TRAP) + "]", "6 too_many /parts/0/faults"),
    (IN_FAULTS, "[" + times(65, "null") + "]", "6 too_many /parts/0/faults"),
    (IN_BAD, "[" + times(64, BAD_BLOCK) + "]", "3 missing_key /parts/0/driver"),
    (IN_BAD, "[" + times(65, BAD_BLOCK) + "]", "6 too_many /parts/0/bad"),
    (IN_ARRIVALS, "[" + times(256, "[1]") + "]", "4 wrong_kind /threads"),
    (IN_ARRIVALS, "[" + times(257, "[1]") + "]", "6 too_many /parts/0/arrivals"),
    (IN_ARRIVALS, "[[" + times(64, "1") + "]]", "4 wrong_kind /threads"),
    (IN_ARRIVALS, "[[" + times(65, "1") + "]]", "6 too_many /parts/0/arrivals/0"),
    (IN_DATA, times(2048, '"00000000"'), "3 missing_key /parts/0/driver/image/entries"),
    (IN_DATA, times(2049, '"00000000"'), "6 too_many /parts/0/driver/image/data"),
    (IN_OPS, times(256, RECV), "right"),
    (IN_OPS, times(257, RECV), "6 too_many /threads/0/ops"),
    (IN_WORDS, times(256, "7"), "right"),
    (IN_WORDS, times(257, "7"), "6 too_many /threads/0/ops/0/data"),
    (IN_PARTS, parts(1), "4 wrong_kind /threads"),
    (IN_PARTS, parts(8), "4 wrong_kind /threads"),
    (IN_PARTS, parts(9), "6 too_many /parts"),
    (IN_THREADS, threads(16), "right"),
    (IN_THREADS, threads(17), "6 too_many /threads"),
    (WHOLE, "[" * 127 + "]" * 127, "4 wrong_kind /"),
    (WHOLE, "[" * 128 + "]" * 128, "1 not_json /"),
]

# Bytes that are no text, or none that JSON allows.
OTHER_BYTES: list[bytes] = [
    b"\xff",
    b'{"x":"\xff"}',
    b'{"\xc3\x28":1}',
    b'{"x":"\xc0\x80"}',
    b'{"x":"\xed\xa0\x80"}',
    b"\xef\xbb\xbf{}",
    b'{"x":"\x01"}',
    b'{"version":1}\x00',
]


def scenarios() -> Iterator[tuple[bytes, str]]:
    """Each scenario of the tables with the line of its error, or `right`."""
    for (before, after), rows in TABLES:
        for text, expected in rows:
            yield (before + text + after).encode(), expected
    for (before, after), text, expected in LONG_LISTS:
        yield (before + text + after).encode(), expected
    for given in OTHER_BYTES:
        yield given, "1 not_json /"


# Driver texts: the kind of the first error, as docs/ASSEMBLER.md counts them, and its line.
TEXTS: list[tuple[str, int, int]] = [
    ("x:LI r1 0", 1, 1),
    ("5x", 1, 1),
    (".word 0X1", 1, 1),
    (".word -1", 1, 1),
    (".word +1", 1, 1),
    (".word 0x", 1, 1),
    (".word 0xg", 1, 1),
    ("LI\x0br1 0", 1, 1),
    ("RET r0\nLI\x0cr1 0", 1, 2),
    ("LI r1 é", 1, 1),
    ("aaaaaaaaaaaaaaaaaaaaaaaaaaaaaaaaa", 1, 1),
    ("aaaaaaaaaaaaaaaaaaaaaaaaaaaaaaaaa:", 1, 1),
    (".aaaaaaaaaaaaaaaaaaaaaaaaaaaaaaaaa", 1, 1),
    (".", 1, 1),
    (":", 1, 1),
    ("a::", 1, 1),
    (".9a", 1, 1),
    ("LI r1 @", 1, 1),
    ("x: x: @", 1, 1),
    ("FOO @", 1, 1),
    ("r1: .class @", 1, 1),
    ("FOO", 2, 1),
    ("li r1 0", 2, 1),
    ("r1", 2, 1),
    ("x: FOO r1", 2, 1),
    ("r1: FOO", 2, 1),
    (".class foo", 2, 1),
    (".class foo bar", 2, 1),
    (".class r1", 2, 1),
    (".class Block", 2, 1),
    (".class block\n.entry foo", 2, 2),
    (".class block\n.entry foo 1 2", 2, 2),
    (".class block\n.entry send 0", 2, 2),
    (".class net\n.entry read 0", 2, 2),
    (".class sound\n.entry poll 0", 2, 2),
    ("aaaaaaaaaaaaaaaaaaaaaaaaaaaaaaaa", 2, 1),
    ("; é @\nFOO ; @", 2, 2),
    ("\t,\r\n  FOO", 2, 2),
    (".class block\n.class foo", 2, 2),
    ("x:\nx: FOO", 2, 2),
    ("JMP x\nx: FOO", 2, 2),
    (".class", 3, 1),
    (".class net sound", 3, 1),
    (".class 1", 3, 1),
    (".entry init 0", 3, 1),
    (".class block\n.entry", 3, 2),
    (".class block\n.entry init", 3, 2),
    (".class block\n.entry init 0 0", 3, 2),
    (".class block\n.entry init r1", 3, 2),
    (".class block\n.entry 1 1", 3, 2),
    ("5", 3, 1),
    ("x: y: RET r0", 3, 1),
    ("x: 5", 3, 1),
    (".foo", 3, 1),
    ("r1: RET r0", 3, 1),
    ("r15:", 3, 1),
    (".data\nRET r0", 3, 2),
    (".class block\n.class", 3, 2),
    ("LI r1", 3, 1),
    ("LI r1 0 0", 3, 1),
    ("LI 1 0", 3, 1),
    ("LI r16 0", 3, 1),
    ("LI r01 0", 3, 1),
    ("LI r1 r2", 3, 1),
    ("LI r1 x:", 3, 1),
    ("MOV r1 1", 3, 1),
    ("FAULT r1", 3, 1),
    ("RET", 3, 1),
    ("JMP r1", 3, 1),
    ("KCALL", 3, 1),
    ("ADD r1", 3, 1),
    ("LD r1 r2", 3, 1),
    (".text x", 3, 1),
    (".data 1", 3, 1),
    (".word", 3, 1),
    (".word 1 2", 3, 1),
    (".word r1", 3, 1),
    (".word .text", 3, 1),
    ("LI r1 65536", 4, 1),
    ("LI r1 0x10000", 4, 1),
    (".word 4294967296", 4, 1),
    (".data\n.word 99999999999999999999999999", 4, 2),
    (".class block\n.entry init 2048", 4, 2),
    ("JMP 70000", 4, 1),
    ("x:\nx: JMP 70000", 4, 2),
    (".class block\n.entry init 0\n.entry init 2048", 4, 3),
    ("x:\nx:", 5, 2),
    ("x: RET r0\nx: RET r0", 5, 2),
    ("x: .data\nx: .text", 5, 2),
    (".class block\n.class block", 5, 2),
    (".class block\n.class net", 5, 2),
    (".class block\n.entry init 0\n.entry init 0", 5, 3),
    ("x:\nx: LI r1 y", 5, 2),
    (".class block\n.entry init 0\n.entry init y", 5, 3),
    ("JMP x", 6, 1),
    (".word x", 6, 1),
    (".class block\n.entry init x", 6, 2),
    ("JMP X\nx:", 6, 1),
    ("JMP x\n@ x:", 6, 1),
    ("JMP x\nRET r0 ; x:", 6, 1),
    ("", 9, 1),
    ("\n", 9, 2),
    (";", 9, 2),
    (".class block", 9, 2),
    (".class block\n", 9, 2),
    (".class block\n\n", 9, 3),
    ("RET r0\n", 9, 2),
    ("LI r1 0;@", 9, 2),
    ("LI r1 0000000000000065535", 9, 2),
    (".word 0xFFFFffff", 9, 2),
    ("JMP r16\nr16:", 9, 3),
    ("JMP r01\nr01:", 9, 3),
    ("LI: JMP LI", 9, 2),
    ("aaaaaaaaaaaaaaaaaaaaaaaaaaaaaaaa: JMP aaaaaaaaaaaaaaaaaaaaaaaaaaaaaaaa", 9, 2),
    (".word x\n.data\nx: .word x", 9, 4),
    (".class block\n.entry init 0\n.entry read 0\n.entry write 0\n.entry get 0\n", 9, 6),
]

LONG_TEXTS: list[tuple[str, int, int]] = [
    (".word 0\n" * 2048 + "RET r0", 7, 2049),
    (".data\n" + ".word 0\n" * 2048 + ".word 1", 8, 2050),
    (".word 0\n" * 2048, 9, 2049),
    (".class block\n.entry init x\n" + ".word 0\n" * 2048 + "x:", 4, 2),
    (".class block\n.entry init x\n" + ".word 0\n" * 2047 + "x:", 9, 2051),
    (".class block\n.entry init x\n" + ".word 0\n" * 2049 + "x:", 4, 2),
    (".class block\n.entry init x\n" + ".word 0\n" * 2047 + "FOO\nx:", 2, 2050),
    (".class block\n.entry init x\n" + ".word 0\n" * 2047 + "LI r1 70000\nx:", 4, 2),
    (".class block\n.entry init x\n.data\nx:\n" + ".word 0\n" * 1, 4, 2),
    (".data 1\n" + ".word 0\n" * 2049, 3, 1),
]


def texts() -> Iterator[tuple[bytes, str]]:
    """Each driver's text of the tables with the line of its error."""
    for text, kind, line in TEXTS + LONG_TEXTS:
        yield text.encode(), f"8 bad_asm {kind} line {line} /"
