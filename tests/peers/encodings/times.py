"""Times of decoding 10 MB beside encoding_rs, in one run, in turn: times.py PEER [RUNS]. compare.py says how PEER is built."""
import pathlib
import subprocess
import sys

ROOT = pathlib.Path(__file__).resolve().parents[3]
OURS = [ROOT / "tests" / "programs" / "out" / "test_calls", "encodings"]
SIZE = 10_000_000
ENGLISH = "The quick brown fox jumps over the lazy dog, and then it reads <a href='/tea'>a page about tea</a>. "
FRENCH = "Le café est déjà prêt à être servi; l'été, où l'on goûte le thé glacé, ça fait plaisir à nos hôtes. "
RUSSIAN = "Чай — напиток, получаемый варкой, завариванием или настаиванием листа чайного куста. "
KOREAN = "차는 차나무의 어린 잎을 따서 만든 음료의 재료이다. 물에 우려 마신다. "
CHINESE = "茶是一种以茶树的叶子制成的饮料，起源于中国，后来传播到世界各地。 "
JAPANESE = "茶は、チャノキの葉や茎を加工して作られる飲み物である。日本でも広く飲まれている。 "
TEXTS = [
    ("windows-1252", "cp1252", ENGLISH),
    ("windows-1252", "cp1252", FRENCH),
    ("windows-1251", "cp1251", RUSSIAN),
    ("euc-kr", "cp949", KOREAN),
    ("gb18030", "gb18030", CHINESE),
    ("shift_jis", "cp932", JAPANESE),
    ("euc-jp", "euc_jp", JAPANESE),
    ("iso-2022-jp", "iso2022_jp", JAPANESE),
    ("utf-8", "utf-8", RUSSIAN),
    ("utf-16le", "utf-16le", RUSSIAN),
]


def best(program, label, text, runs):
    done = subprocess.run([*program, "time", label, str(runs)], input=text, stdout=subprocess.PIPE, check=True)
    return int(done.stdout) / 1e6


def main(peer, runs=7):
    for label, codec, sample in TEXTS:
        piece = sample.encode(codec)
        text = piece * (SIZE // len(piece))
        ours, theirs = best(OURS, label, text, runs), best([peer], label, text, runs)
        print(f"{label}, {sample[:12]!r}: {ours:.1f} ms, encoding_rs {theirs:.1f} ms: {ours / theirs:.2f}", flush=True)


if __name__ == "__main__":
    main(*sys.argv[1:])
