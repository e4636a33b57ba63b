"""The meaning of words and symbols without a definition in the text of tools/book.py."""

# The subject of the contents, and how to read them.
CONTENTS = """A zone file is a CSV text with the columns x, y, z, tonnes and grade; the file of number i has the blocks of the plan's zone i. For
each file a thread, its reader, takes the bytes of a feed and puts the rows into a queue, the lane. Valuers, also threads, take them
out, and value each block at each destination. Sinks take the texts, which depend on none of these threads.

Each contract is listed here with its clauses. After a word is the number of the section that defines it; below a clause each of its
words has the words that it uses. A word without a number is explained in `How to read this`, or is one of the library."""

# The subject of each part of the text.
PARTS = {
    "compile": "The command compile: an opener gives the feed of a file by its path, and a run writes the five texts into sinks.",
    "thin": "The program pitc_thin: the same zone files and threads, and one sink, which takes the precedence file with fewer arcs.",
    "run": "A run: feeds that are open, and any gate, a hook that is called before a row is valued and before a reader pulls.",
    "pipe": "One input holds the text of a plan and the texts of its zone files, cut at lines that are exactly `--`. A plan is a CSV "
            "text:\nthe first cell of a record is its key. The texts of the instance are printed one after the other.",
    "check": "The files BASE.blocks, BASE.prec, BASE.pcpsp and, if it exists, BASE.cpit are read back, and their contents are counted.\nA "
             "file that cannot be opened or read, or is too long, is reported before any invalid line, also before one of a file that was "
             "read\nearlier. `out` is standard output, `err` standard error.",
}

# Words of the language of contracts and definitions.
LANGUAGE = {
    "A → B": "functions from A to B, or that A implies B; `(x : A) → B`: for each x of A; `{X : Type 0}`: omitted if it is clear",
    "A × B": "pairs, or that both hold; `(x : A) × B`: that there is such an x; `p.0`, `p.1`, `p.2`: the parts of `(a, b)` or `(a, b, c)`",
    "λ x. e": "the function that gives e for x",
    "f x = e": "what f is at x; of several such lines the first that fits",
    "let x = e in f": "f, in which x means e",
    "do, x ← e": "continues with the x that e yields, up to the first fault",
    "¬ A, ⊥": "that A cannot be; what cannot be",
    "Unit": "what always holds",
    "pos n, negsuc n": "the integers n and -(n + 1), of a natural number n",
    "Type 0, Type ℓ": "types, and statements, which hold if they have a value",
    "record": "a type with fields, or a statement all of whose fields hold; `r.f`: a field; `record { f = x; }`: one with these fields; `record r { f = x; }`: r with this f",
    "data": "a type of these variants, or a statement that holds by one of them",
    "module _ (x : A) where": "what is below takes x too",
    "abbrev, unfoldable, pub, infix": "no part of what a word means: what the prover opens, what other pages may use, how operators bind: "
                                      "those of a larger number bind closer, and * and / closer than +, + closer than ∷, ∷ closer than ++",
    "#[error(..)], Unit {0}, {I : _}": "how a fault is shown; the {..} after a word can be skipped",
    "a name with ◌": "one that is written between its operands, each a ◌: `a + b`",
    "ensures, requires": "what holds when a call returns, and what its caller owes; `result`: what it returns",
    "ghost": "what contracts see, and code does not",
    "x.now, x.old, x.new": "what a reference shows: now, before the call, and after it",
    "v.items": "the list of a Vec",
    "T.f": "the ghost member f of a trait that T has; `Self`: the type that has the trait",
    "seen as": "contracts see a value of the type as this, and name no field of it",
    "u8 .. u128, usize, i64, i128": "in definitions natural numbers, and of i64 and i128 integers, in the range of the type",
    "&T, Vec<T>, [T], str, String": "in definitions a T, a list, and the list of the bytes of a text",
    "Threads, Wait, Send, Sync, Drop": "what starts threads and lets them wait, what threads may share, and what is freed",
}

# Words of the library, grouped by their sentence.
LIBRARY = {
    ("ℕ", "zero", "suc"): "the natural numbers: 0, and n + 1 for each number n",
    ("◌+◌", "◌*◌", "◌^◌"): "sum, product and power of natural numbers",
    ("◌-◌",): "their difference, 0 if it would be below 0",
    ("◌/◌", "◌%◌"): "their quotient, rounded down, and its remainder; n / 0 is 0 and n % 0 is n",
    ("◌<◌", "◌≤◌"): "less than, and at most",
    ("min",): "the smaller of two natural numbers",
    ("Bor",): "references; `now` is what one shows",
    ("nat_lt", "ltb"): "whether one natural number is less than another, as a Bool",
    ("nat_le", "leb"): "whether it is at most the other",
    ("nat_eq", "eqb", "◌==◌"): "whether they are the same",
    ("Bool", "true", "false"): "yes and no",
    ("◌≡◌",): "that two are the same",
    ("◌≢◌",): "that two are not the same",
    ("◌⊎◌",): "that one of two holds",
    ("◌↔◌",): "that each of two implies the other",
    ("⊤",): "what always holds",
    ("List", "[]", "◌∷◌"): "lists: the empty one, and an element before a list",
    ("◌++◌",): "a list after another",
    ("concat",): "all lists of a list, one after the other",
    ("length",): "how many elements a list has",
    ("reverse",): "a list from its end on",
    ("map",): "`map f xs`: what f gives of each element, in order",
    ("take",): "`take n xs`: the first n elements, or all if there are fewer",
    ("drop",): "`drop n xs`: what follows the first n elements",
    ("replicate",): "`replicate n a`: the list of n times a",
    ("get_or",): "`get_or xs i d`: the element of number i, from 0 on, or else d",
    ("slice_index_or",): "`slice_index_or xs i d`: the element of number i, from 0 on, or else d",
    ("slice_index",): "`slice_index xs i`: the number at i, from 0 on, or else 0",
    ("slice_get",): "`slice_get xs i`: the element of number i, from 0 on, if there is one",
    ("EachIndex",): "`EachIndex xs P`: that P holds of each number below the length",
    ("All",): "`All P xs`: that P holds of each element",
    ("AllZip",): "`AllZip R xs ys`: that two lists are as long, and R holds of their elements, place by place",
    ("AllPairs",): "`AllPairs R xs`: that R holds of each element and each later one",
    ("filter",): "`filter p xs`: the elements at which p gives true, in order",
    ("filter_map",): "`filter_map h xs`: what h returns for the elements, in order, without those for which it returns nothing",
    ("find",): "`find p xs`: the first element at which p gives true, if there is one",
    ("list_any",): "`list_any p xs`: whether p gives true at some element",
    ("list_all",): "`list_all p xs`: whether p gives true at each element",
    ("position",): "`position p xs`: the first index at which p gives true, if there is one",
    ("position_or_len",): "`position_or_len p xs`: the first index at which p gives true, or else the length",
    ("before_first",): "`before_first p xs`: what precedes the first element for which p returns true, or all",
    ("after_first",): "`after_first p xs`: what follows the first element for which p returns true, or nothing",
    ("prefix_len",): "`prefix_len p xs`: how many elements precede the first for which p returns false, or all",
    ("suffix_len",): "`suffix_len p xs`: how many elements follow the last at which p gives false, or all",
    ("fold",): "`fold f a xs`: a if the list is empty, and otherwise the fold from `f a x` of what follows its first element x",
    ("sum_by",): "`sum_by f xs`: the sum of what f gives of each element",
    ("count_by",): "`count_by p xs`: at how many elements p gives true",
    ("range_with_len",): "`range_with_len a n`: the n numbers from a on",
    ("enumerate_from",): "`enumerate_from n xs`: the pairs of n and the first element, n + 1 and the next, and so on",
    ("flat_map",): "`flat_map f xs`: the lists that f returns for the elements, one after the other",
    ("last_or",): "`last_or o xs`: the last element as an option, or the option o if there is none",
    ("ok_prefix",): "the values of a list of results before its first error",
    ("join_with_byte",): "`join_with_byte c xs`: the lists one after the other, with c between each two",
    ("slice_split",): "`slice_split p xs`: the list cut at each element for which p returns true, which is in no part: one more part than "
                      "cuts",
    ("onto_first",): "`onto_first x parts`: x put before the first part, or as the one part if there is none",
    ("IsStrictlyIncreasing",): "that each number of a list is less than the next",
    ("bytes_eq",): "whether two lists of bytes are the same",
    ("string_bytes",): "the bytes of a String",
    ("Config", "default_config"): "how `csv` reads: by its defaults, which the definitions here have put in. Cells end at commas (44) and records at CR, LF or both; double quotes (34) quote, two of them there are one; no other escape, and no comments",
    ("codes",): "the numbers of the characters of a text",
    ("DynBox",): "in definitions what it holds",
    ("Global",): "where memory comes from",
    ("min-le_right", "suc-le-suc_iff"): "proofs: min n m ≤ m; and m ≤ n exactly if m + 1 ≤ n + 1",
}

# The defaults of `csv`, as in its definition file.
CONFIG = "{ delimiter = 44; quote = 34; escape = None; double_quote = true; quoting = true; comment = None; terminator = term.CRLF }"

# Changes that insert the defaults into the definitions of `csv`: settings, their types and unused parts go.
DEFAULTS = [
    (r"(?m)^(?:abbrev pub is_byte .*|is_byte .*|\w+ \(term\.Any.*|\w+ (?:cfg )?st\.In(?:Escape|Comment).*|    In(?:Escape|Comment),)\n", ""),
    (r"records cfg xs = ", "records default_config xs = "),
    (r"(?<!records : )Config → |Terminator → |\bcfg |cfg\.terminator |term\.CRLF |cfg\.(?:double_)?quot(?:ing|e) && (?!c )", ""),
    (r"\n    else if is_byte .* then .*|\n    else if cfg\.\w+ && is_byte .* then .*", ""),
    (r"cfg\.delimiter", "44"),
    (r"cfg\.quote\b", "34"),
]

# The words and symbols of the language in definitions.
SYMBOLS = set("→ × λ ¬ ⊥ = _ ← pub abbrev unfoldable record data where module let in do Type Unit ℓ κ".split())
