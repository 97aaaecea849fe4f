print("hello");
print("a module text of prints, run as the standard says")
