"""PCF in a notebook of Jupyter.

`%load_ext goi` in one cell, and then cells that begin with `%%pcf` hold a program, and are run:

    %%pcf [--budget N] [--by-value] [--check] [--net] [--walk] [--height PIXELS] [NAME]

The value and the moves are printed; with --check the type and the program as it is read, and nothing is run. With --net the net is
drawn, by Graphviz where it is there, and listed where it isn't. With --walk the walk is shown in the page of docs/SEEING.md. By value
both are those of the program's translation. NAME gets the goi.Answer. A program that is refused is told with its line and a mark.

goi.notebook.Net and goi.notebook.Walk are what --net and --walk show, for cells of Python.
"""

import html

from IPython.core.magic import Magics, cell_magic, magics_class
from IPython.core.magic_arguments import argument, magic_arguments, parse_argstring
from IPython.display import display

import goi
from goi import parts


class Net:
    """The net of a program: a drawing in a notebook, and a listing elsewhere."""

    def __init__(self, text):
        self.listing = goi.net(text)

    def __repr__(self):
        return self.listing

    def _repr_html_(self):
        # (as an image: nbconvert takes the lines out of a drawing that is given as SVG)
        svg = parts.picture(self.listing)
        return svg and f'<img alt="The net" src="{parts.as_image(svg)}">'


class Walk:
    """The walk of a program, as the page that shows it. `page` is the whole page, and `save` writes it to a file."""

    def __init__(self, text, budget=goi.BUDGET, start=0, most=2_000, height=640, name="cell"):
        self.trace = goi.trace(text, budget, False, start, most)
        self.page = parts.page(name, text, goi.net(text), self.trace)
        self.height = height

    def __repr__(self):
        return "\n".join(self.trace.splitlines()[:2])

    def _repr_html_(self):
        # (in a frame of its own: the page's styles and scripts see nothing of the notebook)
        given = f'sandbox="allow-scripts allow-downloads" style="width:100%;height:{int(self.height)}px;border:1px solid #ccc"'
        return f'<iframe {given} title="A walk of goi" srcdoc="{html.escape(self.page)}"></iframe>'

    def save(self, path):
        with open(path, "w", encoding="utf-8") as it:
            it.write(self.page)


@magics_class
class Cells(Magics):
    """What `%load_ext goi` brings."""

    @magic_arguments()
    @argument("name", nargs="?", help="the variable that gets the answer")
    @argument("--budget", type=int, default=goi.BUDGET, help="the most moves")
    @argument("--by-value", action="store_true", help="call by value")
    @argument("--check", action="store_true", help="print the type and the program, and run nothing")
    @argument("--net", action="store_true", help="draw the net")
    @argument("--walk", action="store_true", help="show the walk")
    @argument("--height", type=int, default=640, help="of the walk, in pixels")
    @cell_magic
    def pcf(self, line, cell):
        """Runs the program of this cell."""
        asked = parse_argstring(self.pcf, line)
        try:
            if asked.check:
                print(goi.check(cell, term=True), end="")
            else:
                print(goi.run(cell, asked.budget, asked.by_value), end="")
                if asked.name:
                    self.shell.user_ns[asked.name] = goi.tell(cell, asked.budget, asked.by_value)
            if asked.net or asked.walk:
                walked = parts.by_value(cell) if asked.by_value else cell
                if asked.net:
                    display(Net(walked))
                if asked.walk:
                    display(Walk(walked, asked.budget, height=asked.height))
        except goi.Refused as refused:
            print(parts.message(cell, refused))
        except (MemoryError, ValueError) as error:
            print(f"goi: {error}" if str(error) else "goi: no memory")
