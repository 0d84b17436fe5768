{module, e}.
{exports, []}.
{attributes, []}.
{labels, 1}.
