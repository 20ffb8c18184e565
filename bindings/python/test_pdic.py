#!/usr/bin/env python3
"""Tests of pdic.py: examples of the paper (docs/papers/01-scope.md), refusals, walks, and the constants of include/pdic.h."""
import hashlib
import os
import pickle
import re
import tempfile
import unittest

import pdic

IDENT = 0x0123456789ABCDEF
HEADER = os.path.join(os.path.dirname(os.path.abspath(__file__)), '..', '..', 'include', 'pdic.h')


def letters(count):
    return b't' * count


class Case(unittest.TestCase):
    KIND = {}  # of the dictionaries that are made: version and identifier

    def refused(self, number, dictionary, call, *arguments):
        before = bytes(dictionary)
        with self.assertRaises(pdic.PdicError) as refused:
            call(*arguments)
        self.assertEqual(refused.exception.number, number)
        self.assertEqual(str(refused.exception), f'refused {number}: {refused.exception.meaning}')
        self.assertEqual(bytes(dictionary), before)


class Examples(Case):
    def setUp(self):
        self.dictionary = pdic.Dictionary(**self.KIND)

    def test_p2_p3(self):
        self.dictionary.insert(b'ABC', b'one')
        self.assertEqual(len(bytes(self.dictionary)), 768)
        self.dictionary.insert(b'ABDEF', b'two')
        image = bytes(self.dictionary)
        self.assertEqual(len(image), 768)
        self.assertEqual(image[512:538], b'\x01\0\x08\0\0ABC\0\x80one\x08\0\x02DEF\0\x80two\0\0')
        self.assertEqual(self.dictionary.check(), pdic.Counts(2, 1, 1, 0))
        self.assertEqual(self.dictionary.look_up(b'ABDEF'), pdic.Entry(b'ABDEF', pdic.PLAIN, b'two'))

    def test_p6_p7(self):
        self.dictionary.insert(b'a', letters(500))
        self.dictionary.insert(b'b', letters(509))
        self.assertEqual(len(bytes(self.dictionary)), 1792)
        self.assertTrue(self.dictionary.delete(b'a'))
        self.assertEqual(self.dictionary.check().free_blocks, 2)
        self.dictionary.optimise()
        self.assertEqual(len(bytes(self.dictionary)), 1280)

    def test_p6_full(self):
        for most in 1791, 1792:
            dictionary = pdic.Dictionary(most, **self.KIND)
            dictionary.insert(b'a', letters(500))
            if most < 1792:
                self.refused(pdic.FULL, dictionary, dictionary.insert, b'b', letters(509))
            else:
                dictionary.insert(b'b', letters(509))

    def test_optimise_full(self):
        """An image that fills its memory to the last byte: no more is taken."""
        for size in 256, 768:
            dictionary = pdic.Dictionary.from_bytes(bytes(self.dictionary))
            self.assertEqual(len(bytes(dictionary)), size)
            dictionary.optimise()
            self.assertEqual((len(bytes(dictionary)), len(dictionary._image)), (size, size))
            self.dictionary.insert(b'ABC', b'one')

    def test_p10(self):
        self.dictionary.insert(letters(248), letters(3000))
        self.refused(pdic.BAD_HEADWORD, self.dictionary, self.dictionary.insert, letters(249), b'')
        self.refused(pdic.BAD_TEXT, self.dictionary, self.dictionary.insert, b'a', letters(3001))

    def test_arguments(self):
        d = self.dictionary
        self.refused(pdic.BAD_HEADWORD, d, d.look_up, b'')
        self.refused(pdic.BAD_HEADWORD, d, d.look_up, b'a\0b')
        self.refused(pdic.BAD_HEADWORD, d, d.delete, letters(249))
        self.refused(pdic.BAD_HEADWORD, d, next, d.walk(letters(249)))
        self.refused(pdic.BAD_TEXT, d, d.insert, b'a', b'\0')
        self.refused(pdic.BAD_TEXT, d, d.insert, b'a', b'', 0x00)
        self.refused(pdic.BAD_TEXT, d, d.insert, b'a', b'', pdic.PLAIN | pdic.PARTS)
        for attribute in -1, 0x180:
            self.assertRaises(ValueError, d.insert, b'a', b'', attribute)
        self.assertRaises(TypeError, d.look_up, 'a')
        self.assertRaises(TypeError, d.insert, b'a', 'text')

    def test_absent(self):
        self.assertIsNone(self.dictionary.look_up(b'a'))
        self.assertFalse(self.dictionary.delete(b'a'))
        self.assertEqual(list(self.dictionary), [])
        self.assertEqual(self.dictionary.check(), pdic.Counts(0, 0, 0, 0))

    def test_replaced(self):
        self.dictionary.insert(b'a', b'one')
        self.dictionary.insert(b'a', b'', pdic.PLAIN | pdic.LEARN | 3)
        self.assertEqual(list(self.dictionary), [pdic.Entry(b'a', 0xA3, b'')])


class Examples5(Examples):
    KIND = {'version': pdic.FORMAT_5, 'ident': IDENT}

    def tearDown(self):
        self.assertEqual((self.dictionary.version, self.dictionary.ident), (0x0500, IDENT))


class Kinds(Case):
    def test_empty(self):
        version4 = bytes(pdic.Dictionary())
        self.assertEqual(version4[140:142] + version4[216:224], b'\0\x04' + bytes(8))
        version5 = bytearray(bytes(pdic.Dictionary(version=pdic.FORMAT_5, ident=IDENT)))
        self.assertEqual(version5[216:224], b'\xef\xcd\xab\x89\x67\x45\x23\x01')
        version5[141], version5[186:192], version5[216:224] = 4, b'\xff\xff\xff\xff\0\0', bytes(8)
        self.assertEqual(version5, version4)

    def test_idents(self):
        for ident in 0, 1, (1 << 64) - 1:
            dictionary = pdic.Dictionary(version=pdic.FORMAT_5, ident=ident)
            self.assertEqual((dictionary.ident, pdic.Dictionary.from_bytes(bytes(dictionary)).ident), (ident, ident))
        self.assertIsNone(pdic.Dictionary().ident)
        self.assertEqual(len({pdic.Dictionary(version=pdic.FORMAT_5).ident for _ in range(8)}), 8)

    def test_refused(self):
        for version in 0, 3, 6, 0x85, 255:
            with self.assertRaises(pdic.PdicError) as refused:
                pdic.Dictionary(version=version)
            self.assertEqual(refused.exception.number, pdic.BAD_VERSION)
        for kind in ({'ident': 0}, {'version': 4, 'ident': 1}, {'version': 5, 'ident': -1}, {'version': 5, 'ident': 1 << 64},
                     {'version': 0x104}, {'version': -1}):
            self.assertRaises(ValueError, pdic.Dictionary, **kind)


class Walks(unittest.TestCase):
    """A dictionary that grows many times, its headwords in no order."""

    def setUp(self):
        self.dictionary = pdic.Dictionary()
        words = [b'%d' % (k * 7919 % 2000) for k in range(2000)] + [b'\x83\x42', b'Z', b'z', b'\xff']
        for word in words:
            self.dictionary.insert(word, word + b' text')
        self.entries = [pdic.Entry(word, pdic.PLAIN, word + b' text') for word in sorted(words)]

    def test_order(self):
        self.assertEqual(list(self.dictionary), self.entries)
        self.assertEqual(self.dictionary.check().headwords, len(self.entries))

    def test_start(self):
        middle = self.entries[1000].headword
        self.assertEqual(list(self.dictionary.walk(middle)), self.entries[1000:])
        self.assertEqual(list(self.dictionary.walk(middle, above=True)), self.entries[1001:])
        self.assertEqual(list(self.dictionary.walk(b'\xff', above=True)), [])

    def test_changed_between_steps(self):
        for entry in self.dictionary:
            self.assertTrue(self.dictionary.delete(entry.headword))
        self.assertEqual(self.dictionary.check().headwords, 0)

    def test_sealed(self):
        with tempfile.TemporaryDirectory() as folder:
            path, link = os.path.join(folder, 'sealed.dic'), os.path.join(folder, 'link.dic')
            image = bytes(self.dictionary)
            with open(path, 'wb') as file:
                file.write(image)
            os.symlink('sealed.dic', link)
            for digest, is_whole in (hashlib.sha256(image).hexdigest(), True), (hashlib.sha256(b'').hexdigest(), False), ('', False):
                with open(path + '.sha256', 'w') as file:
                    file.write(f'{digest}  sealed.dic\n')
                for name in path, link:
                    if is_whole:
                        self.assertEqual(bytes(pdic.Dictionary.open(name)), image)
                    else:
                        self.assertRaises(pdic.SealError, pdic.Dictionary.open, name)

    def test_pickled(self):
        refusal = pickle.loads(pickle.dumps(pdic.PdicError(pdic.FULL)))
        self.assertEqual((refusal.number, refusal.meaning), (pdic.FULL, pdic.PdicError(pdic.FULL).meaning))

    def test_file(self):
        with tempfile.TemporaryDirectory() as folder:
            path = os.path.join(folder, 'words.dic')
            with open(path, 'wb') as file:
                file.write(bytes(self.dictionary))
            copy = pdic.Dictionary.open(path)
            copy.insert(b'new', b'')
            with open(path, 'rb') as file:
                self.assertEqual(file.read(), bytes(self.dictionary))
        self.assertNotEqual(bytes(copy), bytes(self.dictionary))
        self.assertEqual(len(list(copy)), len(self.entries) + 1)


class Images(Case):
    EMPTY_BLOCK2 = 186

    def setUp(self):
        dictionary = pdic.Dictionary(**self.KIND)
        dictionary.insert(b'ABC', b'one')
        self.image = bytes(dictionary)

    def changed(self, at, byte):
        return self.image[:at] + bytes([byte]) + self.image[at + 1:]

    def test_damaged(self):
        for image, number in ((b'', pdic.BAD_LENGTH), (self.image[:700], pdic.BAD_LENGTH), (self.changed(141, 6), pdic.BAD_VERSION),
                              (self.changed(164, 1), pdic.LEFT_OUT), (self.changed(148, 9), pdic.BAD_AREAS),
                              (self.changed(258, 0), pdic.BAD_INDEX), (self.changed(256, 1), pdic.BAD_PLACE),
                              (self.changed(521, 0), pdic.BAD_RUN), (self.changed(self.EMPTY_BLOCK2, 0), pdic.BAD_BLOCKS),
                              (self.changed(160, 2), pdic.BAD_COUNTS)):
            with self.subTest(number=number):
                self.refused(number, image, pdic.Dictionary.from_bytes, image)

    def test_read_only(self):
        dictionary = pdic.Dictionary.from_bytes(self.changed(140, 16))
        self.assertEqual(dictionary.look_up(b'ABC').text, b'one')
        self.refused(pdic.READ_ONLY, dictionary, dictionary.insert, b'a', b'')
        self.refused(pdic.READ_ONLY, dictionary, dictionary.delete, b'a')
        self.refused(pdic.READ_ONLY, dictionary, dictionary.optimise)


class Images5(Images):
    KIND = {'version': pdic.FORMAT_5, 'ident': IDENT}
    EMPTY_BLOCK2 = 188


class Header(unittest.TestCase):
    def setUp(self):
        with open(HEADER, encoding='ascii') as file:
            self.header = re.sub(r'/\*.*?\*/', '', file.read(), flags=re.S)

    def test_constants(self):
        declared = {name: eval(value) for name, value in re.findall(r'PDIC_(\w+) = ([\w *+()]+)', self.header)}
        mine = {name: value for name, value in vars(pdic).items() if name.isupper() and isinstance(value, int)}
        self.assertEqual(mine, declared)

    def test_interface(self):
        number = {name: int(value) for name, value in re.findall(r'#define PDIC_VERSION_(\w+) (\d+)', self.header)}
        interface = f'{number["MAJOR"]}' if number['MAJOR'] else f'0.{number["MINOR"]}'
        self.assertEqual(pdic.SONAME, f'libpdic.so.{interface}')

    def test_calls(self):
        """The types of each call are those that the header declares."""
        kinds = {'const uint8_t *': 'c_char_p', 'uint8_t *': 'c_void_p', 'size_t ': 'c_ulong', 'uint8_t ': 'c_ubyte',
                 'uint64_t ': 'c_ulong', 'uint64_t *': 'LP_c_ulong', 'size_t *': 'LP_c_ulong', 'uint32_t ': 'c_uint'}
        calls = re.findall(r'\b(?:uint32_t |const char \*)(pdic_\w+)\(([^)]*)\)', self.header)
        self.assertTrue(calls)
        for name, parameters in calls:
            declared = []
            for parameter in re.split(r',\s*', parameters):
                kind, parameter = re.fullmatch(r'(.*?[ *])(\w+)', parameter).groups()
                special = {'image': 'c_void_p', 'attribute': 'LP_c_ubyte' if '*' in kind else 'c_ubyte'}
                declared.append(special.get(parameter, kinds[kind]))
            self.assertEqual([each.__name__ for each in getattr(pdic._library, name).argtypes], declared, name)


if __name__ == '__main__':
    unittest.main()
