print("icon");
