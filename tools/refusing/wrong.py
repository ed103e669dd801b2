"""What a program did that it may not do."""


class Wrong(Exception):
    pass
