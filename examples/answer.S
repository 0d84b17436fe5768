{module, answer}.
{exports, [{answer,0},{least,0},{greatest,0}]}.
{attributes, []}.
{labels, 7}.
{function, answer, 0, 2}.
{label,1}.
{func_info,{atom,answer},{atom,answer},0}.
{label,2}.
{move,{integer,42},{x,0}}.
return.
{function, least, 0, 4}.
{label,3}.
{func_info,{atom,answer},{atom,least},0}.
{label,4}.
{move,{integer,-134217728},{x,0}}.
return.
{function, greatest, 0, 6}.
{label,5}.
{func_info,{atom,answer},{atom,greatest},0}.
{label,6}.
{move,{integer,134217727},{x,0}}.
return.
