"""Wrong forms of a second program, that a random test has to find."""


def method(owner, name, form):
    """With one function of a class or module in another form: `form` gets the function and what that is given. Where that
    fails, so does the program."""
    def wrong(answer):
        def changed(words, text):
            was = getattr(owner, name)
            setattr(owner, name, lambda *given: form(was, *given))
            try:
                return answer(words, text)
            except Exception:
                return 70, b""
            finally:
                setattr(owner, name, was)
        return changed
    return wrong


def change(of):
    """With another answer: `of` gets the words, the status and the text."""
    def wrong(answer):
        def changed(words, text):
            status, out = answer(words, text)
            status, out = of(words, status, out.decode())
            return status, out.encode()
        return changed
    return wrong


def of_documents(old, new):
    """With the first `old` of each document that is written as `new`."""
    return change(lambda words, status, out: (status, out.replace(old, new, 1) if words[0] == "prove" else out))


def of_rejections(old, new):
    return change(lambda words, status, out: (status, out.replace(old, new) if status == 3 else out))


# those of any part
LATE = of_rejections("at line 1", "at line 2")
ENDLESS = change(lambda words, status, out: (status, out.removesuffix("end\n") if words[0] == "prove" else out))
OTHER_COUNT = of_documents("network 2\n", "network 3\n")
ALL_OPEN = change(lambda words, status, out: (1 if words[0] == "prove" else status, out))


def all_good(said):
    """With each document accepted, by what `verify` writes of some."""
    return change(lambda words, status, out: (0, said) if words[0] == "verify" else (status, out))
