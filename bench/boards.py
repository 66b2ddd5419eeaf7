"""Plain arrays that sessions of a model use in turn, in tests: what a run over them would leave."""
from model.frames import next_frame


class Board:
    """An array a tree, each with its fold and unit; and the lines of each tree."""

    def __init__(self, sessions, folds):
        self.folds = folds
        self.lines = [[] for _ in folds]
        self.arrays = [[unit] * sessions for _, unit in folds]

    def root(self, tree):
        """The fold of a tree's array."""
        return self.folds[tree][0](self.arrays[tree])

    def post(self, session, tree, index, value):
        """A session's post."""
        self.lines[tree].append((session, index, value))
        self.arrays[tree][session] = value


class OnBoard:
    """What makes a model's session use a board, as `number`."""

    number, board = 0, None

    def post(self, tree, value):
        """Posts a value there too."""
        super().post(tree, value)
        self.board.post(self.number, tree, self.posts[tree], value)

    def read(self, tree):
        """Reads the root; on a board a stamp is the number of posts."""
        place, value = len(self.board.lines[tree]), self.board.root(tree)
        self.acts.append(("read", tree, place, place, value))
        return value


def row_of(session, act):
    """The row of an act."""
    kind, *numbers = act
    numbers = ["" if number is None else number for number in numbers]
    return ",".join(map(str, [kind, session, *numbers, "", "", "", ""][:6])) + "\n"


def journal_of(board, acts):
    """The text of a journal with these acts and the lines of a board."""
    rows = [row_of(number, act) for number, own in enumerate(acts) for act in own]
    rows += [f"line,{session},{tree},{place},{index},{value}\n"
             for tree, lines in enumerate(board.lines)
             for place, (session, index, value) in enumerate(lines, 1)]
    return "kind,session,a,b,c,d\n" + "".join(rows)


def take_next(data, place, take):
    """Takes the frame at a place of whole frames. Gives the place behind it."""
    found = next_frame(data, place)
    take(data[found.start:found.end], found.fields)
    return found.end


def whole(data):
    """The front of an input that is whole frames."""
    end = 0
    while hasattr(found := next_frame(data, end), "end"):
        end = found.end
    return data[:end]
