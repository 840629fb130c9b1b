// Listings of a source side by side: the widths of bars.

import { setWidths } from "./bars.js";

setWidths();
