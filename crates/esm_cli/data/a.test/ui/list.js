import "./element.js";
print("list");
