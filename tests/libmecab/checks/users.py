"""User dictionaries of substrings of the lines, as each library reads them."""
from libmecab.checks.all_morphs import lattice_output
from libmecab.checks.common import INDEX, IPADIC
from libmecab.checks.context import Context
from support.running import program, run

# Two dictionaries: their names, which third of the words they lack, and the features of the rest.
USERS = (("one", 0, "名詞,一般,*,*,*,*,一"), ("other", 1, "名詞,固有名詞,一般,*,*,*,二"))


def words_of(context: Context) -> list[str]:
    """Returns substrings of the lines, of two to five characters."""
    texts = context.lines.read_text().splitlines()[:1000]
    plain = [text.replace(" ", "").replace(",", "").replace('"', "") for text in texts]
    stretches = (text[i % 9 : i % 9 + 2 + i % 4] for i, text in enumerate(plain) if len(text) > 13)
    return sorted(set(stretches))


def users_of(context: Context) -> str:
    """Compiles the user dictionaries, and returns their paths, divided by commas.

    Some words are in both.
    """
    users, words = [], words_of(context)
    for name, number, feature in USERS:
        source = context.folder / f"{name}.csv"
        user = context.folder / f"{name}-{'ours' if context.is_ours else 'theirs'}"
        entries = [
            f"{word},1285,1285,{100 * i % 700 - 300},{feature}\n"
            for i, word in enumerate(words)
            if (i + number) % 3
        ]
        source.write_text("".join(entries))
        if context.is_ours:
            image = context.dictionary / "kumquatsieve.img"
            run([program("dictc"), "user", "--dic", image, "--out", user, source])
        else:
            run([INDEX, "-d", IPADIC, "-u", user, "-f", "UTF-8", "-t", "UTF-8", source])
        users.append(str(user))
    return ",".join(users)


def fields_with_users(context: Context) -> bytes:
    """Returns each field of each node of the lines, with user dictionaries."""
    command = [context.client("node_fields.c"), context.dictionary, context.lines]
    return context.run([*command, users_of(context)])


def lattices_with_users(context: Context) -> bytes:
    """Returns the lattices of the lines, with user dictionaries."""
    return lattice_output(context, users_of(context))
