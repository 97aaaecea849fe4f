import "shop/cart.js";
print("legacy page");
