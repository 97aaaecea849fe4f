print("cart of shop 1");
