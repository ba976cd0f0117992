"""Run the example notebook from top to bottom."""

from __future__ import annotations

import json
import pathlib
import shutil
import sys

import pytest

FOLDERS = [pathlib.Path(__file__).resolve().parents[up] / "examples" for up in (1, 2)]


def test_the_study_runs(tmp_path: pathlib.Path, monkeypatch: pytest.MonkeyPatch) -> None:
    nbformat = pytest.importorskip("nbformat")
    preprocessors = pytest.importorskip("nbconvert.preprocessors")
    for library in ("ipykernel", "rasterio", "pandas", "matplotlib"):
        pytest.importorskip(library)
    examples = next(folder for folder in FOLDERS if (folder / "study.ipynb").exists())
    shutil.copytree(examples / "rasters", tmp_path / "rasters")
    kernel = tmp_path / "jupyter" / "kernels" / "python3"
    kernel.mkdir(parents=True)
    words = [sys.executable, "-m", "ipykernel_launcher", "-f", "{connection_file}"]
    (kernel / "kernel.json").write_text(
        json.dumps({"argv": words, "display_name": "Python 3", "language": "python"})
    )
    monkeypatch.setenv("JUPYTER_PATH", str(tmp_path / "jupyter"))
    notebook = nbformat.read(examples / "study.ipynb", as_version=4)
    preprocessors.ExecutePreprocessor(timeout=3600, kernel_name="python3").preprocess(
        notebook, {"metadata": {"path": str(tmp_path)}}
    )
    outputs = [
        output for cell in notebook.cells if cell.cell_type == "code" for output in cell.outputs
    ]
    said = "".join(output.get("text", "") for output in outputs)
    assert "Borneo: 736,512 km² in 3 countries; largest share: Indonesia, 72 %" in said
    pictures = [output for output in outputs if "image/png" in output.get("data", {})]
    assert len(pictures) == 2
    tables = [
        output for output in outputs if "<table" in output.get("data", {}).get("text/html", "")
    ]
    assert len(tables) == 3
    assert 'src="data:image/png;base64,' in outputs[0]["data"]["text/html"]
