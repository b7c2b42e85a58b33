"""The tool's tests. From the root of the repository: PYTHONPATH=python python3 -m unittest discover -s python/tests -t python"""
