import "log";
import "shop/cart.js";
import "./legacy/page.js";
print("main");
