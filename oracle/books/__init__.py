"""Books to try: the worked ones, tiny ones exhaustively, random ones of every style, refused ones."""
