"""The tools of the repository; each file without an ending beside this one starts one."""
