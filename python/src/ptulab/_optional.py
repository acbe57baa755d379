"""Libraries that only some features need."""

import importlib
from typing import Any

from .errors import MissingLibraryError

PACKAGES = {"distributed": "many", "dask": "many", "tqdm": "many", "matplotlib": "plot", "lmfit": "fit", "scipy": "fit",
            "h5py": "export", "tifffile": "export", "xarray": "export", "pandas": "export", "plotly": "page", "starlette": "app", "uvicorn": "app", "jinja2": "app"}  # the extra that has each


def want(name: str, feature: str) -> Any:
    """The module ``name``, which ``feature`` needs.

    Raises ``MissingLibraryError``, with the Debian package and the extra of this package that have it, where it isn't installed.
    """
    root = name.partition(".")[0]
    try:
        return importlib.import_module(name)
    except ModuleNotFoundError as error:
        if error.name is None or error.name.partition(".")[0] != root:
            raise
        extra = f", or the extra ptulab[{PACKAGES[root]}]" if root in PACKAGES else ""
        raise MissingLibraryError(f"{feature} needs {root}: install python3-{root} (Debian){extra}") from error
