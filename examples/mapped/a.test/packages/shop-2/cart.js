print("cart of shop 2");
