{module, empty}.
{exports, []}.
{attributes, []}.
{labels, 1}.
