"""The functions of a crate's source, as the prover names them: `F`, `Type::F`, `module::F`, `TypeTrait::F`, `TypeTraitArgument::F`."""
import re

HEAD = re.compile(r'^( *)(?:pub )?(?:extern "C" )?fn (\w+)', re.M)
IMPL = re.compile(r'^impl (?:(\w+)(?:<(\w+)>)? for )?(\w+)', re.M)


def module_of(file):
    """What stands before the names of a file's functions: nothing for the root, `a::` for src/a.rt and src/a/mod.rt."""
    parts = file.removesuffix('.rt').split('/')[1:]
    return ''.join(part + '::' for part in parts if part not in ('lib', 'main', 'mod'))


def owner_of(trait, argument, name):
    """A block's name: its type's, then its trait's and what the trait is of, such as `U32FromRefusal` of `impl From<Refusal> for u32`."""
    return ''.join(word[:1].upper() + word[1:] for word in (name, trait, argument)) if trait else name


def functions(file, text):
    """Each function of the file with its place in the text. It ends at the brace below its head, as the formatter lays it out."""
    found = []
    for head in HEAD.finditer(text):
        end = text.find(f'\n{head[1]}}}\n', head.end())
        owner = owner_of(*IMPL.findall(text[:head.start()])[-1]) + '::' if head[1] else ''
        found.append((module_of(file) + owner + head[2], head.start(), end))
    return found


def functions_at(file, text, spots):
    """The functions in which the spots stand."""
    return {name for name, first, last in functions(file, text) for start, end, _ in spots if first <= start and end <= last}
