"""The binding beside the samples."""

import contextlib
import io
import pathlib
import pickle
import random
import threading
import unittest

import sigla

SAMPLES = pathlib.Path(__file__).parent / "../../samples"


class Calls(unittest.TestCase):
    def test_the_samples(self):
        self.assertEqual(sigla.__version__, (SAMPLES / "../VERSION").read_text().strip())
        (query,) = sigla.answer((SAMPLES / "infinite.hex").read_bytes())
        self.assertEqual([d.code for d in query.diagnostics], ["reject/infinite-type"])
        self.assertEqual(query.diagnostics[0].span, (4, 11))
        self.assertEqual(query.diagnostics[0].message, "this pattern would have to contain itself")
        self.assertEqual(query.types[2], ("record", ((1, ("open", 0)),)))
        form = sigla.answer((SAMPLES / "form.hex").read_bytes())
        self.assertEqual([[d.code for d in query.diagnostics] for query in form], [[], ["reject/type-mismatch"]])
        self.assertEqual([query.types[0] for query in form], [("string",), ("integer",)])
        self.assertEqual([query.types[2] for query in form], [("fact", 0)] * 2)
        self.assertEqual([query.visits for query in form], [2, 3])

    def test_out_and_back(self):
        form = (SAMPLES / "form.hex").read_bytes()
        narrow = sigla.narrow(form)
        self.assertEqual(sigla.widen(narrow), form)
        with self.assertRaises(sigla.Refused) as refused:
            sigla.narrow(form.replace(b"0d00000000", b"0d00010000"))
        self.assertEqual(refused.exception.number, 14)

    def test_a_day(self):
        sample = (SAMPLES / "infinite.hex").read_bytes()
        group = sigla.Group.set_up(4, [2, 0], [4, 4])
        self.assertEqual([group.ceiling(desk) for desk in (0, 1)], [4, 2])
        self.assertEqual(group.check(0, sample), sigla.check(sample))
        with self.assertRaises(sigla.Refused) as refused:
            group.check(1, sample)
        self.assertEqual((refused.exception.number, group.desks[0].used, group.desks[1].used), (16, 3, 1))
        group.new_day()
        self.assertEqual(group.ceiling(0), 4)
        tally = sigla.Tally()
        tally.add(2_500, 7)
        self.assertEqual((tally.units, tally.cents, tally.remainder), (2, 14, 500))

    def test_the_lamp(self):
        for name, lit in [("infinite.hex", True), ("form.hex", True)]:
            self.assertEqual(sigla.lamp((SAMPLES / name).read_bytes()), lit)
        self.assertFalse(sigla.lamp(b"01020020\n05000000000000000000\n060000\n"))
        with self.assertRaises(sigla.Refused) as refused:
            sigla.lamp(b"", words=3)
        self.assertEqual(refused.exception.number, 1)

    def test_refusals(self):
        for file, number in [(b"", 4), (b"\n", 3), (b"0" * 65537, 2)]:
            with self.assertRaises(sigla.Refused) as refused:
                sigla.answer(file)
            self.assertEqual(refused.exception.number, number)
        with self.assertRaises(sigla.Refused) as refused:
            sigla.check((SAMPLES / "form.hex").read_bytes(), length=3)
        self.assertEqual(refused.exception.number, 12)
        self.assertIn("does not know", str(sigla.Refused(99)))

    def test_what_has_no_bytes_is_told(self):
        names, form = sigla.Names(), (SAMPLES / "form.hex").read_bytes()
        for wrong in (5, True, 0, None, "01020020\n", 1.5, [48, 49], object()):
            for call in (sigla.answer, sigla.check, sigla.lamp, sigla.widen, sigla.narrow, sigla.parse, names.of,
                         lambda data: sigla.growth(form, data), lambda data: sigla.growth(data, form), lambda data: sigla.inspect(data, 0),
                         lambda data: sigla.Group.set_up(4, [4], [4]).check(0, data)):
                with self.assertRaises(TypeError, msg=(wrong, call)):
                    call(wrong)
        for data in (form, bytearray(form), memoryview(form)):
            self.assertEqual(sigla.check(data), sigla.check(form))
        with self.assertRaises(TypeError):
            sigla.load("7")

    def test_a_refusal_survives_a_pickle(self):
        for fault in (sigla.Refused(4), sigla.Refused(99), sigla.Limit("names"), sigla.Limit("repeated_field", "pen")):
            again = pickle.loads(pickle.dumps(fault))
            self.assertEqual((type(again), str(again), vars(again)), (type(fault), str(fault), vars(fault)))
        self.assertEqual(str(sigla.Refused(2)), "refused (2): the file has more than 65,536 bytes")

    def test_the_version(self):
        self.assertEqual(sigla.version(), sigla.__version__)

    def test_growth(self):
        old = (SAMPLES / "../crates/sigla_growth/data/old.hex").read_bytes()
        new = (SAMPLES / "../crates/sigla_growth/data/new.hex").read_bytes()
        self.assertEqual([sigla.growth(*pair) for pair in [(old, new), (b"", new), (old, b""), (new, old)]], [0, 1, 2, 3])
        self.assertEqual(sigla.growth(old.replace(b"0d00000000", b"0d00000001"), new.replace(b"0d00000000", b"0d00000001")), 4)
        self.assertEqual(sigla.growth(old, new, words=16383), 1)
        self.assertEqual(sigla.check(old), sigla.check(new))

    def test_load(self):
        seven = (SAMPLES / "../crates/sigla_load/stdout").read_bytes()
        self.assertEqual(sigla.load(7), seven)
        self.assertEqual(sigla.load(7, len(seven)), seven)
        with self.assertRaises(sigla.Refused) as refused:
            sigla.load(7, len(seven) - 1)
        self.assertEqual(refused.exception.number, 12)
        self.assertEqual(len({sigla.load(seed) for seed in range(100)}), 100)
        self.assertTrue(all(sigla.check(sigla.load(seed)) for seed in range(100)))
        with self.assertRaises(ValueError):
            sigla.load(2 ** 32)

    def test_the_plain_solver(self):
        form, infinite = ((SAMPLES / name).read_bytes() for name in ("form.hex", "infinite.hex"))
        told = [sigla.inspect(form, n) for n in range(5)]
        self.assertEqual([one.told for one in told], ["success", "success", "failure", "fewer", "fewer"])
        self.assertEqual([[str(binding) for binding in one.bindings] for one in told], [["?0 = String"], ["?0 = Int"], [], [], []])
        self.assertEqual([sigla.inspect(infinite, n).told for n in (0, 1, 2 ** 32 - 1)], ["failure", "fewer", "fewer"])
        unread = b"01020020\n0278\n050000000000000001030000\n05000000040000000a0f\n050000000f00000010030000\n0600020000000001\n"
        self.assertEqual(sigla.inspect(unread, 0), sigla.Inspected("shut out"))
        self.assertEqual(sigla.inspect(form, 0, lent=6), told[0])
        for arguments, options, number in [((form, 0), {"lent": 5}, 18), ((form, 0), {"lent": 0}, 18), ((form, 0), {"words": 16383}, 1),
                                           ((b"", 0), {"lent": 0}, 4)]:
            with self.assertRaises(sigla.Refused) as refused:
                sigla.inspect(*arguments, **options)
            self.assertEqual(refused.exception.number, number)
        with self.assertRaises(ValueError):
            sigla.inspect(form, 2 ** 32)

    def test_bindings_are_read_and_shown(self):
        words = [11, 5, 5, 2, 9, 3, 1, 9, 7, 7, 2, 11, 6, 6, 1, 10, 4, 9, 9, 5, 0, 11, 7, 4, 70000, 11, 8, 8, 11, 9, 3, 0, 11]
        found = sigla.bindings(words)
        self.assertEqual([str(binding) for binding in found],
                         ["?5 = record 2 .3 Int .7 ?2", "?6 = union 1 |4 .9 record 0", "?7 = fact 70000", "?8 = Error", "?9 = Bytes"])
        self.assertEqual(found[0], sigla.Binding(5, ("record", ((3, ("integer",)), (7, ("open", 2))))))
        self.assertEqual(found[1].type, ("union", ((4, 9, ("record", ())),)))
        whole = []
        for end in range(1, 31):
            with contextlib.suppress(ValueError):
                sigla.bindings(words[:end])
                whole.append(end)
        self.assertEqual(whole, [11, 21, 25, 28])
        for wrong in [[12, 0, 1], [11, 0, 0], [11, 0, 11, 0, 1], [11, 0, 5, 1, 10, 0, 1], [11, 0, 6, 1, 9, 0, 1], [11, 0, 1, 1]]:
            with self.assertRaises(ValueError, msg=wrong):
                sigla.bindings(wrong)
        (deep,) = sigla.bindings([11, 0] + [5, 1, 9, 0] * 100000 + [1])
        self.assertEqual(str(deep).count("record"), 100000)

    def test_what_is_no_answer(self):
        for lines in [b"0e\n", b"07000100\n", b"070000\n", b"0700000000\n", b"07000000", b"0a61\n", b"0B0000\n", b"0b0001\n", b"07 000000\n",
                      b"\n", b"0900000000\n0900000000\n", b"0800000000000000006\n", b"08000000000000000061\n0a61\n0a61\n"]:
            with self.assertRaises(ValueError, msg=lines):
                sigla.parse(lines)

    def test_names_written_once(self):
        (query,) = sigla.parse(b"07000000\n0c0000000100000002\n0900000001\n")
        self.assertEqual((query.once, query.diagnostics), ([(1, 2)], []))

    def test_types_are_shown(self):
        form = (SAMPLES / "form.hex").read_bytes()
        names = sigla.Names.of(form)
        query = sigla.answer(form)[0]
        self.assertEqual([sigla.shown(type, names) for type in query.types],
                         ["a string", "{pen = a string, pressure = an integer}", "`sample`", "a string"])
        self.assertEqual(sigla.tree(query.types[1], names), "record\n  pen: string\n  pressure: integer\n")
        union = ("union", ((0, 7, ("fact", 9)), (9, 8, ("record", ()))))
        self.assertEqual(sigla.shown(union, names), "{sample : a fact = 7 | ? : {} = 8}")
        self.assertEqual(sigla.tree(union, names), "union\n  sample = 7: fact 9 (absent)\n  ? = 8: record\n")
        self.assertEqual(str(sigla.answer(form)[1].diagnostics[0]), "35..41: reject/type-mismatch: expected an integer, found a string")

    def test_the_deepest_on_a_thread_of_the_stated_stack(self):
        deepest = (SAMPLES / "deepest.hex").read_bytes()
        found = []

        def run():
            found.append(sigla.check(deepest))
            found.append(sigla.lamp(deepest))
            found.append(sigla.widen(sigla.narrow(deepest)) == deepest)
            found.append(sigla.growth(deepest, deepest))
            found.append({sigla.inspect(deepest, n, lent=1 << 18).told for n in range(0, 600, 40)} <= set(sigla.TOLD))

        before = threading.stack_size(sigla.STACK)
        thread = threading.Thread(target=run)
        thread.start()
        threading.stack_size(before)
        thread.join()
        self.assertEqual(found[1:], [b"\n08" in found[0], True, 0, True])
        names = sigla.Names.of(deepest)
        for query in sigla.parse(found[0]):
            for type in query.types:
                self.assertEqual(sigla.shown(type, names).count("{"), sigla.tree(type, names).count("record") + sigla.tree(type, names).count("union"))
        deep = b"070000" + b"0400010000" * 100000 + b"00\n"
        self.assertEqual(sigla.shown(sigla.parse(deep)[0].types[0]).count("{"), 100000)

    def test_damaged_answers(self):
        numbers = random.Random(7)
        lines = sigla.check((SAMPLES / "form.hex").read_bytes())
        parsed = 0
        for _ in range(5000):
            data = bytearray(lines)
            for _ in range(numbers.randint(1, 3)):
                at = numbers.randrange(len(data))
                if numbers.random() < 0.5:
                    data[at] = numbers.choice(b"0123456789abcdef\n")
                else:
                    del data[at:at + numbers.randint(1, 4)]
            with contextlib.suppress(ValueError):
                sigla.parse(bytes(data))
                parsed += 1
        self.assertGreater(parsed, 100)

    def test_numbers_are_not_cut(self):
        with self.assertRaises(ValueError):
            sigla.Tally().add(1 << 32, 1)
        with self.assertRaises(ValueError):
            sigla.Group.set_up(1 << 32, [], [])
        with self.assertRaises(sigla.Refused):
            sigla.Group.set_up(4, [4], [4]).ceiling(1)

    def test_as_a_program(self):
        out = io.StringIO()
        with contextlib.redirect_stdout(out):
            self.assertEqual(sigla.main([str(SAMPLES / "form.hex")]), 1)
        self.assertIn("  n1    {pen = a string, pressure = an integer}\n", out.getvalue())
        self.assertIn("  35..41: reject/type-mismatch: expected an integer, found a string\n", out.getvalue())
        with contextlib.redirect_stdout(out), contextlib.redirect_stderr(out):
            self.assertEqual([sigla.main(paths) for paths in ([], ["/nowhere"], [str(SAMPLES / "notation/fact.txt")])], [2, 2, 3])


class Builder(unittest.TestCase):
    AT = (0, 0)

    def limit(self, kind, call, *arguments):
        with self.assertRaises(sigla.Limit) as limit:
            call(*arguments)
        self.assertEqual(limit.exception.kind, kind)
        return limit.exception

    def ask(self, form):
        query = form.query()
        return query.ask(query.integer(self.AT))

    def one_more(self, file, line):
        """The refusal of a file with one line more, put before the first line of a later kind."""
        lines = file.splitlines(True)
        place = next((i for i, other in enumerate(lines) if other[:2] > line[:2]), len(lines))
        with self.assertRaises(sigla.Refused) as refused:
            sigla.check(b"".join([*lines[:place], line, *lines[place:]]))
        return refused.exception.number

    def test_the_example(self):
        form = sigla.Form(2, 32)
        text = form.string()
        sample = form.predicate("sample", text)
        query = form.query()  # x where sample x; x < 3
        fact = query.fact((8, 16), sample, query.variable((15, 16), "x"))
        compares = sigla.Compares(query.variable((18, 19), "x"), query.integer((22, 23)))
        self.assertEqual(query.ask(query.variable((0, 1), "x"), [sigla.Holds(fact), compares]), 0)
        (typed,) = sigla.answer(form.file())
        self.assertEqual([str(d) for d in typed.diagnostics], ["22..23: reject/type-mismatch: expected a string, found an integer"])
        self.assertEqual(form.texts(), sigla.Names.of(form.file()))

    def test_limits_of_the_schema(self):
        form = sigla.Form(2, 32)
        self.assertEqual([form.name(f"n{i}") for i in range(sigla.NAMES)], list(range(sigla.NAMES)))
        self.assertEqual(form.name("n7"), 7)
        self.limit("names", form.name, "more")
        self.ask(form)
        self.assertEqual(self.one_more(form.file(), b"026d6f7265\n"), sigla.Limit("names").refusal)
        form = sigla.Form(2, 32)
        types = [form.integer() for _ in range(sigla.TYPES)]
        self.limit("types", form.string)
        predicates = [form.predicate("p", types[-1], types[-1] if i % 2 else None) for i in range(sigla.PREDICATES)]
        self.assertEqual([p.number for p in predicates], list(range(sigla.PREDICATES)))
        self.limit("predicates", form.predicate, "p", types[0])
        self.ask(form)
        self.assertEqual(len(sigla.answer(form.file())), 1)
        self.assertEqual(self.one_more(form.file(), b"0300\n"), sigla.Limit("types").refusal)
        self.assertEqual(self.one_more(form.file(), b"040000000000\n"), sigla.Limit("predicates").refusal)
        form = sigla.Form(2, 32)
        ty = form.bytes()
        self.assertEqual(self.limit("repeated_field", form.record, [("a", ty), ("b", ty), ("a", ty)]).what, "a")
        self.assertEqual(self.limit("repeated_discriminant", form.union, [("a", 7, ty), ("b", 7, ty)]).what, 7)
        form.union([("a", 0, ty), ("a", 2 ** 32 - 1, ty)])
        form.record([])
        self.limit("broken_text", form.name, "\ud800")
        self.ask(form)
        self.assertEqual(len(sigla.answer(form.file())), 1)

    def test_limits_of_queries(self):
        form = sigla.Form(2, 32)
        query = form.query()
        last = query.integer(self.AT)
        for _ in range(1, sigla.NODES):
            last = query.arithmetic(self.AT, [last])
        self.limit("nodes", query.integer, self.AT)
        query.ask(last)
        self.assertEqual(self.one_more(form.file(), b"05000000000000000000\n"), sigla.Limit("nodes").refusal)
        form = sigla.Form(2, 32)
        self.assertEqual([self.ask(form) for _ in range(sigla.QUERIES)], list(range(sigla.QUERIES)))
        self.limit("queries", form.query)
        self.assertEqual(len(sigla.answer(form.file())), sigla.QUERIES)
        form = sigla.Form(2, 32)
        self.limit("frame", form.name, "é" * 256)
        self.assertEqual(form.name("x" * 511), 0)
        query = form.query()
        nodes = [("a", query.wildcard(self.AT)) for _ in range(126)]
        self.limit("frame", query.record, self.AT, nodes)
        query.ask(query.record(self.AT, nodes[:125]))  # none of them was used up by what failed
        self.assertEqual(len(sigla.answer(form.file())), 1)
        for i in range(63):
            form.name(f"{i:0511}")
        self.limit("file", form.file)

    def test_no_handle_serves_another(self):
        one, two = sigla.Form(2, 32), sigla.Form(2, 32)
        ty, foreign = one.integer(), two.integer()
        self.limit("other_type", one.record, [("a", foreign)])
        self.limit("other_type", one.union, [("a", 0, foreign)])
        self.limit("other_type", one.predicate, "p", foreign)
        self.limit("other_type", one.predicate, "p", ty, foreign)
        p, q = one.declare("p"), two.predicate("p", foreign)
        self.limit("other_predicate", one.fact, q)
        self.limit("other_predicate", one.define, q, ty)
        self.limit("other_predicate", one.define, sigla.Predicate.absent(0), ty)
        one.define(p, ty)
        self.limit("other_predicate", one.define, p, ty)
        given_up = one.query()
        old = given_up.integer(self.AT)
        query = one.query()
        node = query.integer(self.AT)
        self.limit("other_node", given_up.integer, self.AT)
        self.limit("other_node", query.value, self.AT, old)
        self.limit("other_node", query.either, self.AT, [node, node])
        self.limit("other_predicate", query.fact, self.AT, q, node)
        fact = query.fact(self.AT, sigla.Predicate.absent(2 ** 32 - 1), node)
        self.limit("other_node", query.value, self.AT, node)
        self.limit("other_node", query.ask, fact, [sigla.Holds(fact)])
        self.limit("no_query", one.file)
        query.ask(fact)
        self.limit("other_node", query.integer, self.AT)
        self.assertEqual(len(sigla.answer(one.file())), 1)

    def test_a_predicate_may_refer_to_itself(self):
        form = sigla.Form(2, 32)
        page, other = form.declare("page"), form.declare("other")
        text, following = form.string(), form.fact(page)
        key = form.record([("text", text), ("next", following)])
        form.define(page, key)
        query = form.query()
        pattern = query.record(self.AT, [("next", query.variable(self.AT, "x"))])
        fact = query.fact(self.AT, page, pattern)
        query.ask(query.field(self.AT, "text", query.variable(self.AT, "x")), [sigla.Holds(fact)])
        self.assertEqual(self.limit("undefined", form.file).what, "other")
        form.define(other, text, key)
        (typed,) = sigla.answer(form.file())
        self.assertEqual(sigla.shown(typed.types[1], form.texts()), "{text = a string, next = `page`}")

    def test_numbers_that_do_not_fit(self):
        form = sigla.Form(2, 32)
        query = form.query()
        for call in (lambda: sigla.Form(256, 0), lambda: sigla.Form(0, 65536), lambda: sigla.Predicate.absent(-1), lambda: query.integer((0, 1 << 32)),
                     lambda: query.fuzzy(self.AT, "x", 256), lambda: form.union([("a", 1 << 32, form.string())])):
            self.assertRaises(ValueError, call)
        self.assertRaises(TypeError, sigla.Form, "2", 32)


if __name__ == "__main__":
    unittest.main()
