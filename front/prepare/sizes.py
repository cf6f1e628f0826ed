"""Sizes: what doesn't change while a nest runs gets a name, with the C that it stands for and what is assumed of it."""

from .forms import Form


class Sizes:
    """`said` has for each name the C that it stands for; `rows` what holds of them by definition: (operator, form, reason)."""

    def __init__(self):
        self.names, self.said, self.rows, self.cells, self.values = {}, {}, [], {}, {}

    def named(self, key, wanted, said):
        """The name of the size `key`, made from `wanted` where it is new."""
        if key not in self.names:
            name, turn = wanted, 2
            while name in self.said:
                name, turn = f"{wanted}_{turn}", turn + 1
            self.names[key], self.said[name] = name, said
        return self.names[key]

    def size(self, key, wanted, said):
        return Form.of(self.named(key, wanted, said))

    def quotient(self, form, number):
        """The size for `form / number`, rounded down, with the rows that say so."""
        key = ("quotient", form, number)
        new = key not in self.names
        said = f"({form.text()}) / {number}"
        made = self.size(key, words(f"{form.text()}_by_{number}"), said)
        if new:
            self.rows.append((">=", form - made.times(number), f"{made.text()} is {said}"))
            self.rows.append((">=", made.times(number).plus(number - 1) - form, f"{made.text()} is {said}"))
            self.rows.append((">=", form, f"{said} is rounded toward 0"))
        return made

    def flag(self, key, said, wanted):
        """The size that is 1 where `said` holds, and 0 elsewhere."""
        new = ("flag", key) not in self.names
        made = self.size(("flag", key), words(wanted), f"1 where {said}, else 0")
        if new:
            self.rows.append((">=", made, f"{made.text()} is 0 or 1"))
            self.rows.append((">=", Form.number(1) - made, f"{made.text()} is 0 or 1"))
        return made


def words(text):
    """A name made of what letters and digits stand in a text of C."""
    plain = text.replace("->", "_").replace("*", "_").replace("/", "_by_").replace("%", "_mod_").replace("-", "_less_")
    kept = "".join(letter if letter.isalnum() or letter == "_" else "_" for letter in plain)
    name = "_".join(part for part in kept.split("_") if part)
    name = name if name and not name[0].isdigit() else "n_" + name
    return name[:40]
