"""Judges folders of histories on several machines, by Dask.distributed."""
