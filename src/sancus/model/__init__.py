"""What the front end knows of inputs and runs. It neither prints nor speaks: bytes and values come in, values go out."""
