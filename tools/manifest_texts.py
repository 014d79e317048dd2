"""The texts that crates/manifest is run on, in groups, each with a line that says what it shows."""

import os

REAL = os.path.join(os.path.dirname(os.path.abspath(__file__)), "..", "crates", "manifest", "data")

IMAGE = b"""{
  "Image": {
      "Width":  800,
      "Height": 600,
      "Title":  "View from 15th Floor",
      "Thumbnail": {
          "Url":    "http://www.example.com/image/481989943",
          "Height": 125,
          "Width":  100
      },
      "Animated" : false,
      "IDs": [116, 943, 234, 38793]
    }
}"""

PLACES = b"""[
  {
     "precision": "zip",
     "Latitude":  37.7668,
     "Longitude": -122.3959,
     "Address":   "",
     "City":      "SAN FRANCISCO",
     "State":     "CA",
     "Zip":       "94107",
     "Country":   "US"
  },
  {
     "precision": "zip",
     "Latitude":  37.371991,
     "Longitude": -122.026020,
     "Address":   "",
     "City":      "SUNNYVALE",
     "State":     "CA",
     "Zip":       "94085",
     "Country":   "US"
  }
]"""

# Short manifests that were made for this list.
TYPED = b'{\n  "name": "@rink/pump",\n  "main": "lib/pump.js",\n  "types": "lib/pump.d.ts",\n  "typings": "pump.d.ts"\n}\n'
EXPORTING = b'{"name":"@rink/valve","version":"1.4.0","private":true,"exports":"./lib/valve.js","files":["lib"]}'
VERSIONED = '{"name":"kühl","typesVersions":{">=4.2":{"*":["ts4.2/*",null,"\\u0074s/*"],"x":"y"}},"n":-1.5e3}'.encode()


def strings(*chars):
    """Manifests whose name has these chars between its quotation marks, as text or as bytes."""
    return [b'{"name":"' + (some.encode() if isinstance(some, str) else some) + b'"}' for some in chars]


def texts(*given):
    return [text.encode() for text in given]


def padded(size):
    return b" " * (size - 2) + b"{}"


def long_string(size):
    return b'{"name":"a","x":"' + b"b" * (size - 19) + b'"}'


def cut(text):
    return [text[:size] for size in range(len(text) + 1)]


def real(name):
    """A manifest as it was published."""
    with open(os.path.join(REAL, name + ".json"), "rb") as file:
        return file.read()


def in_each_field(*values):
    return texts(*(f'{{"name":{value},"main":{value},"types":{value},"typings":{value}}}' for value in values))


def exports(*values):
    return [b'{"exports":' + value.encode() + b"}" for value in values]


def versions(*values):
    return [b'{"typesVersions":' + value.encode() + b"}" for value in values]


GROUPS = [
    ("The examples of RFC 8259, section 13.", [IMAGE, PLACES, b'"Hello world!"', b"42", b"true"]),
    (
        "Every kind of value; a root that is no object has no fields.",
        texts("null", "false", "true", "0", '""', "[]", "{}", '"name"', '["name","a"]', '[{"name":"a"}]',
            "[null,false,true,0,\"\",[],{}]", '{"a":null,"b":false,"c":true,"d":0,"e":"","f":[],"g":{}}'),
    ),
    (
        "White space: the four bytes of it around every token, none at all, and bytes that are none.",
        texts(" \t\n\r".join(["", "{", '"name"', ":", '"a"', ",", '"main"', ":", "[", "1", ",", "2", "]", "}", ""]),
            "", " ", "\r\n\t ", "\v1", "\f1", "1\v", "[\f]", "\u00a01", "1\u2028", "\x001", "1\x00", "\ufeff{}", "{}\ufeff"),
    ),
    (
        "Escapes of one letter, and what is none.",
        strings(r"\"", r"\\", r"\/", r"\b", r"\f", r"\n", r"\r", r"\t", r"a\"b\\c\/d\be\ff\ng\rh\ti", r"\a", r"\v", r"\0",
            r"\'", r"\x41", r"\U0041", r"\N", "\\ ", "\\\n", "\\\u00e9", "\\"),
    ),
    ("Bytes that may not stand in a string, and those next to them.", strings("\x00", "\x08", "\t", "\n", "\r", "\x1f",
        "\x20", "!", "#", "[", "]", "~", "\x7f", "/", "'")),
    (
        "Escapes by four digits, in either case, and wrong digits at each place.",
        strings(r"\u0000", r"\u001f", r"\u0022", r"\u005c", r"\u007f", r"\u0080", r"\u00e9", r"\u00E9", r"\u07ff", r"\u0800",
            r"\u20aC", r"\uABCD", r"\uabcd", r"\uFfFf", r"\ud7ff", r"\uD7FF", r"\ue000", r"\uE000", r"\ug000", r"\u0g00",
            r"\u00g0", r"\u000g", r"\u000G", r"\u", r"\u0", r"\u00", r"\u000", r"\u00e9e", r"\u+041", r"\u 041"),
    ),
    (
        "Surrogates: in pairs at each edge and in either case; alone, reversed, and before something else.",
        strings(r"\ud800\udc00", r"\uD800\uDC00", r"\udbff\udfff", r"\uDBFF\uDFFF", r"\ud83d\ude00", r"\uD83d\uDe00",
            r"a\ud83d\ude00b\ud83d\ude00", r"\ud800", r"\uDBFF", r"\ud800a", r"\ud800\n", r"\ud800\u0041", r"\ud800\ud800",
            r"\ud800\udbff", r"\ud800\ud800\udc00", r"\ud800\ue000", r"\ud800\uda00", r"\ud800\udg00", r"\ud800\udc0",
            r"\ud800 \udc00", r"\ud800\\udc00", r"\udc00", r"\uDFFF", r"\udc00\ud800", r"a\ude00", r"\ud83d\ude00\ude00",
            r"\ud83", r"\ud83d\u", r"\ud83d\ud"),
    ),
    (
        "UTF-8 as it stands: the first and the last character of each length and beside the surrogates.",
        strings("\u0080", "\u07ff", "\u0800", "\ud7ff", "\ue000", "\uffff", "\U00010000", "\U0010ffff",
            "k\u00fchl\u20ac\U0001f600", "\ufeff"),
    ),
    (
        "Damaged UTF-8: overlong forms, surrogates, codes that are too large, sequences cut short, bytes that begin none.",
        strings(b"\xc0\x80", b"\xc0\xaf", b"\xc1\xbf", b"\xe0\x80\x80", b"\xe0\x9f\xbf", b"\xf0\x80\x80\x80",
            b"\xf0\x8f\xbf\xbf", b"\xed\xa0\x80", b"\xed\xaf\xbf", b"\xed\xb0\x80", b"\xed\xbf\xbf",
            b"\xed\xa0\xbd\xed\xb8\x80", b"\xf4\x90\x80\x80", b"\xf5\x80\x80\x80", b"\xf8\x88\x80\x80\x80", b"\xfe", b"\xff",
            b"\xc3", b"\xc3a", b"\xe2\x82", b"\xe2a\x82", b"\xe2\x82\xc2", b"\xf0\x9f\x98", b"\xf0\x9fa",
            b"\xf0\x9f\x98\xe2", b"\x80", b"\xbf", b"a\x80", b"\xc3\xa9\xa9")
        + [b'{"\xc0\x80":1}', b'{"\xc3\xa9":1}', b"\xc3\xa9", b"[\x80]", b'"\xe2\x82', b'"\xf0\x90'],
    ),
    (
        "Numbers at every edge.",
        texts("-0", "-1", "10", "1234567890", "0.0", "0.10", "-0.5", "1e1", "1E1", "1e+1", "1E-2", "1e01", "0e0", "-0.0e-0",
            "1.5E+300", "1e999999", "9" * 400, "0." + "1" * 400, "-", "--1", "+1", "01", "00", "-01", "-00", "1.", "-1.",
            ".5", "-.5", "0.", "1.e1", "1.5.5", "1e", "1E", "1e+", "1e-", "1e+-1", "1e1.5", "1e1e1", "0x10", "1a", "1_000",
            "1,", "1 1", "1-1", "- 1", "1 .5", "0 1", "[01]", "[-]", "[1.]", "[1e]", '{"a":-}', '{"a":1.}', '{"a":01}',
            "\u0661", "1\u0661"),
    ),
    (
        "Literal names, cut, wrong, too long and those of other languages.",
        texts("t", "tr", "tru", "f", "fals", "n", "nul", "trua", "falsy", "nil", "nule", "truee", "nulll", "falsefalse",
            "True", "TRUE", "Null", "NaN", "Infinity", "-Infinity", "undefined", "None", "[tru]", "[truee]", '{"a":nul}',
            "true false", "true,", "a"),
    ),
    (
        "Brackets, commas and colons out of place.",
        texts("[", "]", "{", "}", "[}", "{]", "[1", "[1,", "[1,]", "[,1]", "[,]", "[1,,2]", "[1 2]", "[1:2]", "[1}", "[1]]",
            "[][]", "[],", "{}{}", "{}1", '{"a"', '{"a":', '{"a":1', '{"a":1,', '{"a"}', '{"a",1}', '{"a" 1}', '{"a"::1}',
            '{"a":}', '{"a":1,}', '{"a":1,,"b":2}', '{,"a":1}', '{"a":1 "b":2}', '{"a":1;"b":2}', '{"a":1]', '{"a":[1}',
            "{1:2}", "{null:1}", "{[]:1}", "{a:1}", "{'a':1}", "'a'", '"a', '"a" "b"', '"a"b', ",", ":", "/", "// c\n1",
            "/* c */1", "1 // c", "# c", "{}}", '{"a":1}}', '[{"a":1},2'),
    ),
    ("A short manifest with types, made for this list, cut at every byte.", cut(TYPED)),
    ("A short manifest with exports, made for this list, cut at every byte.", cut(EXPORTING)),
    ("A short manifest with version paths, made for this list, cut at every byte.", cut(VERSIONED)),
    ("The manifest of just-diff 6.0.2, with types and exports, cut at every byte.", cut(real("just-diff"))),
    ("The manifest of @tufjs/canonical-json 2.0.0, with typings, cut at every byte.", cut(real("canonical-json"))),
    ("The manifest of ip-regex 5.0.0, with plain exports, cut at every byte.", cut(real("ip-regex"))),
    (
        "32 and 33 open brackets: arrays, objects, both in turn, below a field, and 32 twice.",
        [b"[" * 32 + b"]" * 32, b"[" * 33 + b"]" * 33, b"[" * 33, b"[" * 32, b"[" * 32 + b"0", b"[" * 32 + b"{}" + b"]" * 32]
        + [b'{"a":' * 31 + b"{}" + b"}" * 31, b'{"a":' * 32 + b"{}" + b"}" * 32, b'{"a":' * 32 + b"0" + b"}" * 32,
            b'{"a":' * 32 + b"[]" + b"}" * 32]
        + [b'[{"a":' * 16 + b"0" + b"}]" * 16, b'[{"a":' * 16 + b"[]" + b"}]" * 16, b'{"a":[' * 16 + b"]}" * 16,
            b'{"a":[' * 16 + b"{" + b"]}" * 16]
        + [b'{"name":"a","x":' + b"[" * 31 + b"]" * 31 + b',"main":"b"}',
            b'{"name":"a","x":' + b"[" * 32 + b"]" * 32 + b',"main":"b"}',
            b"[" + b"[" * 31 + b"]" * 31 + b"," + b"[" * 31 + b"]" * 31 + b"]", b'"' + b"[" * 40 + b'"'],
    ),
    (
        "Lengths of 16,384 and 16,385 bytes; a text that is too long is not read, whatever it is.",
        [padded(16384), padded(16385), long_string(16384), long_string(16385), long_string(16384)[:-1] + b"]",
            b"]" + padded(16384)],
    ),
    (
        "The first of equal names counts, and names are compared decoded.",
        texts('{"name":"a","name":"b"}', '{"name":"a","n\\u0061me":"b"}', '{"\\u006e\\u0061\\u006d\\u0065":"a","name":"b"}',
            '{"name":1,"name":"b"}', '{"exports":1,"exports":"./a"}', '{"exports":"./a","exports":1}',
            '{"exports":null,"\\u0065xports":"./a"}', '{"typesVersions":1,"typesVersions":{"1":{"a":"b"}}}',
            '{"typesVersions":{"1":{"a":"b","a":"c"}}}', '{"typesVersions":{"1":{},"1":{"a":"b"}}}',
            '{"main":"a","types":"b","main":"c","types":"d"}', '{"x":{"name":"a"},"name":"b"}',
            '{"Name":"a","NAME":"b","name ":"c","nam":"d","names":"e","":"f"}',
            '{"t\\u0079pes":"a","t\\u0079pings":"b","m\\/ain":"c","\\u006Dain":"d"}'),
    ),
    (
        "The first of equal keys counts among ranges and among patterns too, whatever its value; each object has keys of its own.",
        versions('{"*":{},"*":{"a":"b"}}', '{"*":{"a":1,"a":["y"]}}', '{"*":{"a":["x"],"a":["y"]}}',
            '{"1":{"a":"b"},"1":{"c":"d"}}', '{"1":1,"1":{"a":"b"},"2":{"c":"d"}}', '{"1":{"a":1},"2":{},"1":{"a":"b"},"2":{"c":"d"}}',
            '{"1":{"a":1,"a":"b"},"2":{"a":"c"}}', '{"1":{"a":1,"b":"c","a":"d","b":"e"}}', '{"1":{"a":"b","c":"d","a":1}}',
            '{"1":{"a":[],"a":["b"]},"2":{"c":"d"}}', '{"1":{"a":null,"a":"b","a":"c"}}', '{"1":{"a":"b","a":"b","a":"b"}}',
            '{"1":{"\\u0061":"b","a":"c"}}', '{"1":{"a":"b","\\u0061":"c","\\u0061b":"d"}}', '{"\\u0031":{},"1":{"a":"b"}}',
            '{"1":{"":"a","":"b"," ":"c"}}', '{"":{},"":{"a":"b"}}', '{"1":{"*":"a","\\u002a":"b","\\u002A":"c"}}',
            '{"1":{"\u00e9":"a","\\u00e9":"b","\\u00E9":"c"}}', '{"1":{"\\ud83d\\ude00":"a","\U0001f600":"b"}}',
            '{"1":{"a\\/b":"c","a/b":"d"}}', '{"1":{"aa":"b","a":"c","aaa":"d","a":"e"}}',
            '{"1":{"a":{"b":"c","b":"d"},"b":"e","a":"f"}}', '{"1":{"k":[1,1,"a","a"]}}',
            '{"1":{' + ",".join(f'"k{number % 40}":"t{number}"' for number in range(100)) + "}}")
        + texts('{"typesVersions":{"1":{}},"typesVersions":{"1":{"a":"b"}}}', '{"typesVersions":{"main":{"main":"a"},"main":{"b":"c"}},"main":"d"}'),
    ),
    (
        "Fields of the wrong kind are absent; those that are strings are told in a fixed order, and empty ones too.",
        in_each_field("null", "true", "false", "1", "[]", '["a"]', "{}", '{"name":"a"}', '""', '"-"', '"a b%"')
        + texts('{"typings":"d","types":"c","main":"b","name":"a"}', '{"types":"","exports":"./a","name":"a\\u0020b"}',
            '{"name":"\\u0000\\u00ff\\uFFFF"}', '{"main":"./a","types":1,"typings":"b"}'),
    ),
    (
        "Exports of every kind, and strings at each edge of what is plain.",
        exports("null", "true", "0", "[]", "{}", '["./a"]', '{".":"./a"}', '""', '"."', '"/"', '"./"', '"./a"',
            '"./a/b.c/d"', '"./a/"', '"./a//b"', '".//a"', '"./."', '"./.."', '"./..."', '"./.a"', '"./a."', '"./a/./b"',
            '"./a/../b"', '"./a/.."', '"./..a"', '"./node_modules"', '"./NODE_MODULES/x"', '"./a/Node_Modules"',
            '"./node_modules_"', '"./node_module"', '"./n\\u006fde_modules/x"', '"./a*"', '"./*"', '"./a%20"', '"./%"',
            '"./a\\\\b"', '"./a\\/b"', '"./a\\u002fb"', '"\\u002e\\u002fa"', '"./\\u002e"', '"./a\\u002a"', '"./a b"',
            '"./a?b#c"', '"./\\u0000"', '"./\u00e9\\ud83d\\ude00"', '"a"', '"../a"', '"/a"', '"a/b"', '" ./a"', '".\\\\a"'),
    ),
    (
        "Version paths: values of every kind, ranges that give no pattern before one that does, arrays without strings, "
        "values that are skipped.",
        versions("null", "1", '"a"', "[]", '[{"*":"a"}]', "{}", '{"1":null}', '{"1":"a"}', '{"1":["a"]}', '{"1":{}}',
            '{"1":{"*":"a"}}', '{"1":{"*":["a","b"]}}', '{"1":{"*":[]}}', '{"1":{"*":[1,null,{},["a"]]}}',
            '{"1":{"*":[1,"a",null,"b",{"c":"d"},"",["e"]]}}', '{"1":{"a":1,"b":"c","d":null,"e":["f"],"g":{},"h":true}}',
            '{"1":{},"2":{"*":"a"}}', '{"1":[],"2":"x","3":{"a":1},"4":{"*":"a"},"5":{"*":"b"}}',
            '{"<4":{"*":1},">4":{"*":["a/*",2,"b"],"c":[]}}', '{"1":{"*":[]},"2":{"*":"a"}}',
            '{"1":{"*":{}},"2":{"*":["a"]}}', '{"":{"":""}}', '{"1":{"-":"-","\\u002a":"\\u0061*"}}',
            '{ "1" : { "a*b*" : [ "*/*" , "%" ] , "c" : "d" } , "2" : 1 }',
            '{"1":{"a":{"b":"c"},"d":[["e"]]},"2":{"f":"g"}}')
        + texts('{"typesVersions":{"1":{"a":"b"}},"exports":"./c","typings":"d","types":"e","main":"f","name":"g"}',
            '{"typesversions":{"1":{"a":"b"}}}', '{"x":{"typesVersions":{"1":{"a":"b"}}}}'),
    ),
]
